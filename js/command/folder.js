/** The pairs of headers in a folder: each folder below it that has the files new.txt and old.txt. */
import { existsSync, readdirSync } from 'node:fs';
import { dirname, join, relative } from 'node:path';
import { weaker } from '../index.js';
import { Refusal } from '../refusal.js';
import { acceptedIn } from './accepted.js';
import { readHeaderFile } from './headers.js';
import { read } from './files.js';
import { statusOf } from './weakened.js';

/**
 * @typedef {import('./weakened.js').Paired} Paired
 * @typedef {import('../accepted.js').Accepted} Accepted
 */

const USAGE = 2;
const READ_FAULT = 8;

/**
 * The folders below one that have a pair. Where one file of a pair is missing, that is refused.
 * @param {string} folder
 * @returns {string[]}
 */
const pairsIn = folder => {
  /** @type {import('node:fs').Dirent[]} */
  let entries;
  try {
    entries = readdirSync(folder, { withFileTypes: true }).sort((a, b) => a.name < b.name ? -1 : 1);
  } catch (error) {
    const { code } = /** @type {NodeJS.ErrnoException} */ (error);
    throw new Refusal(READ_FAULT, { problem: `${folder}: it can't be read as a folder (${code})` });
  }
  const has = ['new.txt', 'old.txt'].filter(it => entries.some(({ name }) => name === it));
  if (has.length === 1) {
    const other = has[0] === 'new.txt' ? 'old.txt' : 'new.txt';
    throw new Refusal(READ_FAULT, { problem: `${folder}: ${has[0]} stands there without ${other}` });
  }
  const below = entries.filter(it => it.isDirectory()).flatMap(it => pairsIn(join(folder, it.name)));
  return has.length === 2 ? [folder, ...below] : below;
};

/**
 * A file that counts for a pair: in its folder, or in the next one above it up to the top.
 * @param {string} folder
 * @param {string} top
 * @param {string} name
 * @returns {string | undefined}
 */
const nearest = (folder, top, name) => {
  const path = join(folder, name);
  if (existsSync(path)) return path;
  return relative(top, folder) === '' ? undefined : nearest(dirname(folder), top, name);
};

/**
 * The origin that counts for a pair.
 * @param {string} folder
 * @param {string} top
 * @param {string | undefined} common the command line's
 */
const originOf = (folder, top, common) => {
  const named = nearest(folder, top, 'origin.txt');
  if (named !== undefined) return read(named, named).toString().trim();
  if (common !== undefined) return common;
  throw new Refusal(USAGE, { problem: `${folder}: no origin is given for it`,
    hint: `Write ORIGIN behind weaker, or the origin into ${join(top, 'origin.txt')}.` });
};

/**
 * @param {import('../index.js').Program} program
 * @param {string} folder
 * @param {string} top
 * @param {{ origin: string | undefined, accepted: Accepted[] }} common
 * @returns {Promise<Paired>}
 */
const answerOf = async (program, folder, top, common) => {
  const paths = { new: join(folder, 'new.txt'), old: join(folder, 'old.txt') };
  const lines = nearest(folder, top, 'accepted.txt'), origin = originOf(folder, top, common.origin);
  const pair = { name: relative(top, folder) || '.', origin, ...paths, line: 1, remarks: [] };
  try {
    const accepted = [...common.accepted, ...lines === undefined ? [] : acceptedIn(lines)];
    const newer = await readHeaderFile(program, 'new', paths.new, read('new', paths.new));
    const old = await readHeaderFile(program, 'old', paths.old, read('old', paths.old));
    const answer = weaker(program, { origin, new: newer.content, old: old.content, accepted });
    const remarks = [...newer.remarks, ...old.remarks];
    return { ...pair, line: newer.line, remarks, answer, status: statusOf(answer) };
  } catch (error) {
    if (!(error instanceof Refusal)) throw error;
    return { ...pair, refused: error.message, status: error.status };
  }
};

/**
 * The answers about all pairs of a folder.
 * @param {import('../index.js').Program} program
 * @param {string} top
 * @param {{ origin: string | undefined, accepted: Accepted[] }} common
 */
export const answersIn = async (program, top, common) => {
  const folders = pairsIn(top), answers = [];
  if (folders.length === 0) {
    throw new Refusal(USAGE, { problem: `${top}: no folder in it has new.txt and old.txt`,
      hint: 'Put each pair into a folder of its own, as service/route/new.txt and service/route/old.txt.' });
  }
  for (const it of folders) answers.push(await answerOf(program, it, top, common));
  return answers;
};
