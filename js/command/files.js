/** Reads the files of a command line. */
import { readFileSync } from 'node:fs';
import { Refusal } from '../refusal.js';

const READ_FAULT = 8;

const UNREAD = /** @type {Record<string, string>} */ ({
  ENOENT: 'there is no such file', EISDIR: 'it is a folder', EACCES: 'you may not read it',
});

/**
 * What a file holds; - is standard input.
 * @param {string} file the member of the call, or the option
 * @param {string} path
 */
export const read = (file, path) => {
  try {
    return readFileSync(path === '-' ? 0 : path);
  } catch (error) {
    const { code = '' } = /** @type {NodeJS.ErrnoException} */ (error);
    const isHost = /^[\w-]+(\.[\w-]+)+(:\d+)?$/.test(path) && code === 'ENOENT';
    const hint = /^(https?:|null$)/.test(path) ? 'An origin stands here in place of a file.'
      : isHost ? `An origin begins with its scheme: https://${path}` : undefined;
    throw new Refusal(READ_FAULT, { file, problem: UNREAD[code] ?? `it can't be read (${code})`, hint });
  }
};
