/** The program itself, by the words of its own command line. */
import { spawnSync } from 'node:child_process';
import { readFileSync } from 'node:fs';
import { loadEngine } from '../node.js';
import { ORIGINS, WORDS } from './words.js';

const FAULT = 70;

/**
 * @param {string} path
 * @returns {[] | [Uint8Array]}
 */
const contentOf = path => {
  try {
    return [readFileSync(path)];
  } catch {
    return [];
  }
};

/**
 * The exit code and the bytes of the program. A file that can't be read is left out: the program says so.
 * @param {string[]} words
 * @param {string | undefined} path the program that is asked in place of the engine
 */
export const runProgram = async (words, path) => {
  if (path) {
    const { status, error } = spawnSync(path, words, { stdio: 'inherit' });
    if (error !== undefined) throw error;
    return { code: status ?? FAULT, bytes: new Uint8Array() };
  }
  const members = WORDS.find(it => it.word === words[0])?.members;
  const first = members === undefined ? words.length : 1 + members.filter(it => ORIGINS.includes(it)).length;
  const files = words.slice(first).flatMap((word, n) =>
    contentOf(word).map(bytes => /** @type {[string, Uint8Array]} */ ([`file ${n}`, bytes])));
  return (await loadEngine()).call(words.map((it, n) => n < first ? it : `file ${n - first}`), files);
};
