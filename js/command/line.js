/** Reads the command line: the word, its members and its options. */
import { existsSync } from 'node:fs';
import { parseArgs } from 'node:util';
import { Refusal } from '../refusal.js';
import { usageOf } from './help.js';
import { OPTIONS as PROPOSING } from './proposed.js';
import { ORIGINS, WORDS } from './words.js';

/** @typedef {import('./words.js').Word} Word */

/**
 * What is wanted of the answer.
 * @typedef {{ all: boolean, json: boolean, sarif: boolean, github: boolean, help: boolean,
 *   ndjson: boolean, 'save-proof'?: string, accepted?: string, folder?: string, url?: string,
 *   events?: string[] }} Options
 */

/**
 * The line, read: the word, the origins and the paths of the files by their members' names, the files that
 * stand for requests, and the options.
 * @typedef {{ word: Word, origins: Record<string, string>, paths: Record<string, string>, sources: string[],
 *   options: Options }} Line
 */

const USAGE = 2;

const OPTIONS = /** @type {const} */ ({
  all: { type: 'boolean', default: false }, json: { type: 'boolean', default: false },
  sarif: { type: 'boolean', default: false }, github: { type: 'boolean', default: false },
  help: { type: 'boolean', default: false }, 'save-proof': { type: 'string' }, accepted: { type: 'string' },
  folder: { type: 'string' }, url: { type: 'string' }, events: { type: 'string', multiple: true },
  ndjson: { type: 'boolean', default: false },
});

/**
 * @param {string} problem
 * @param {Word} word
 */
const misused = (problem, word) => new Refusal(USAGE, { problem, hint: `Usage: ${usageOf(word)}` });

/** @param {string} text */
const wordOf = text => {
  const found = WORDS.find(it => it.word === text);
  if (found !== undefined) return found;
  const near = WORDS.find(it => it.word.startsWith(text.toLowerCase().slice(0, 2)));
  const hint = near === undefined ? 'guidecerise --help has all words.' : `Write ${near.word}?`;
  throw new Refusal(USAGE, { problem: `no word ${JSON.stringify(text)}`, hint });
};

/**
 * @param {Word} word
 * @param {string[]} args
 */
const parsed = (word, args) => {
  const text = /** @type {const} */ ({ type: 'string' });
  const names = [...word.members, ...word.optional ?? []].filter(it => !MANY.includes(it));
  const members = Object.fromEntries(names.map(it => [it, text]));
  try {
    const known = { ...members, ...OPTIONS, ...word.word === 'propose' ? PROPOSING : {} };
    const { values, positionals } = parseArgs({ args, allowPositionals: true, options: known });
    const options = /** @type {Options} */ (/** @type {unknown} */ (values));
    return { given: /** @type {Record<string, string | undefined>} */ (values), positionals, options };
  } catch (error) {
    const { code, message } = /** @type {NodeJS.ErrnoException} */ (error);
    if (!code?.startsWith('ERR_PARSE_ARGS')) throw error;
    throw misused(message.split('. To specify')[0], word);
  }
};

// The members that are many files
const MANY = ['lists', 'reports'];

/** @param {Word} word whether files of many forms stand for its requests */
const takesSources = word => word.members.includes('requests');

/**
 * Whether the positionals are files for requests alone, so that each page has its own origin and headers.
 * @param {Word} word
 * @param {string[]} positionals
 */
const areSources = (word, [first = '-', ...rest]) => {
  if (!takesSources(word) || word.members[0] === 'requests') return takesSources(word);
  const isOrigin = first === 'null' || /^[a-z][a-z0-9+.-]*:/i.test(first);
  return existsSync(first) || !isOrigin && rest.length < 2;
};

/**
 * The members and their values: those that are named, and for the others the positionals in their order.
 * What is left of those stands for requests or lists.
 * @param {Word} word
 * @param {Record<string, string | undefined>} given
 * @param {string[]} positionals
 */
const placed = (word, given, positionals) => {
  const { members } = word, left = [...positionals], isOpen = areSources(word, positionals);
  /** @type {[string, string][]} */
  const values = [];
  const isTwice = given.folder !== undefined && (given.new ?? given.old) !== undefined;
  if (isTwice) throw misused('--folder stands in place of --new and --old', word);
  const files = given.folder === undefined ? members : members.filter(it => ORIGINS.includes(it));
  for (const name of files.filter(it => !MANY.includes(it))) {
    const isSource = name === 'requests' && given[name] === undefined && left.length > 0;
    const value = given[name] ?? (isOpen || isSource ? undefined : left.shift());
    if (value !== undefined) values.push([name, value]);
    else if (!isOpen && !isSource && given.folder === undefined) {
      throw misused(`${name.toUpperCase()} is missing`, word);
    }
  }
  if (members.includes('lists')) left.splice(0).forEach((it, n) => values.push([`list ${n + 1}`, it]));
  for (const name of word.optional ?? []) {
    const value = given[name];
    if (value !== undefined) values.push([name, value]);
  }
  const isMany = takesSources(word) || members.includes('reports'), sources = isMany ? left.splice(0) : [];
  if (left.length > 0) throw misused(`one word too many: ${left[0]}`, word);
  const isEmpty = sources.length === 0 && given.requests === undefined;
  if (isMany && isEmpty) throw misused(`${members[members.length - 1].toUpperCase()} is missing`, word);
  const paths = [...values.map(([, it]) => it), ...sources];
  if (paths.filter(it => it === '-').length > 1) throw misused('- stands for two files', word);
  return { values, sources };
};

/**
 * @param {Word} word
 * @param {Options} options
 */
const refuseOptions = (word, options) => {
  const { sarif, github, accepted, folder, url, events, ndjson, 'save-proof': path } = options;
  if (ndjson && !['requests', 'reports'].includes(word.word)) {
    throw misused('--ndjson goes with requests and reports', word);
  }
  if (url !== undefined && !takesSources(word)) throw misused('--url goes with requests', word);
  if (events !== undefined && !['judge', 'why'].includes(word.word)) {
    throw misused('--events goes with judge and why', word);
  }
  if (accepted !== undefined && word.word !== 'weaker') throw misused('--accepted goes with weaker', word);
  if (folder !== undefined && word.word !== 'weaker') throw misused('--folder goes with weaker', word);
  if (path !== undefined && !word.proofs) throw misused('--save-proof goes with compare and weaker', word);
  if ((sarif || github) && !word.finds) throw misused(`${word.word} finds nothing that has a line`, word);
};

/**
 * @param {string} first
 * @param {string[]} rest
 * @returns {Line}
 */
export const lineOf = (first, rest) => {
  const word = wordOf(first), { given, positionals, options } = parsed(word, rest);
  if (options.help) return { word, origins: {}, paths: {}, sources: [], options };
  refuseOptions(word, options);
  const { values, sources } = placed(word, given, positionals);
  const origins = values.filter(([name]) => ORIGINS.includes(name));
  const paths = Object.fromEntries(values.filter(([name]) => !ORIGINS.includes(name)));
  const { requests, ...others } = paths, all = requests === undefined ? sources : [requests, ...sources];
  return { word, origins: Object.fromEntries(origins), paths: others, sources: all, options };
};
