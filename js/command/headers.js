/** The header files of a call, in whatever form people have them, as header lines for the engine. */
import { read } from '../index.js';
import { ReadingError } from '../readers/error.js';
import { readHar } from '../readers/har.js';
import { readHeaders } from '../readers/headers.js';
import { marksOf } from '../readers/marks.js';
import { kindOf } from '../readers/site.js';
import { Refusal } from '../refusal.js';
import { htmlParser } from './parser.js';

/**
 * What is to be known of how a file was read. `isMark` is true where something is probably not meant so.
 * @typedef {{ path: string, line?: number, said: string, isMark: boolean }} Remark
 */

/**
 * A header file: what the engine is given, the header lines of its policies, the line of the first that
 * is enforced, and how it was read.
 * @typedef {{ content: string | Uint8Array, lines: string[], line: number, remarks: Remark[] }} HeaderFile
 */

/** The members of a call that are header lines. */
export const isHeaders = (/** @type {string} */ member) =>
  ['headers', 'new', 'old', 'required', 'response'].includes(member) || member.startsWith('list ');

const BAD_POLICY = 4;

const LINE = /^((?:meta-)?content-security-policy(?:-report-only)?):(.*)/i;

/** @param {string} text whether the engine reads it as it is */
const isPlain = text => text.split('\n')
  .every((it, n) => it.trim() === '' || /^[\w-]+:/.test(it) || n === 0 && it.startsWith('HTTP/'));

/** @param {string[]} lines header lines, with what spelling tells nothing of taken out */
const normal = lines => lines.flatMap(it => {
  const [, name, value] = LINE.exec(it) ?? [];
  return name === undefined ? [] : [`${name.toLowerCase()}:${value.trim().replace(/\s+/g, ' ')}`];
}).join('\n');

/**
 * The refusal that stands for an error of the readers.
 * @param {unknown} error
 * @param {number} status
 * @param {string} [file] the member of the call, or a path
 */
export const refusalOfReading = (error, status, file) => {
  if (!(error instanceof ReadingError)) return error;
  const { said, found, write, line } = error.told;
  const stood = found === undefined ? '' : `: ${JSON.stringify(found.slice(0, 60))}`;
  return new Refusal(status, { file, line, got: found, problem: `${said}${stood}`, hint: `${write}.` });
};

/**
 * What is marked in policies, each with the path of its file.
 * @param {import('../index.js').Program} program
 * @param {string[]} lines
 * @param {string} path
 * @returns {Remark[]}
 */
export const marksIn = (program, lines, path) => {
  if (lines.length === 0) return [];
  const reading = read(program, { headers: lines.join('\n') });
  return marksOf(reading).map(({ policy, said }) => {
    const which = policy === null || reading.policies.length < 2 ? '' : `policy ${policy + 1}: `;
    return { path, said: which + said, isMark: true };
  });
};

/**
 * The headers of the pages in a recording, which have to be the same on all of them.
 * @param {string} text
 * @returns {Promise<import('../readers/headers.js').Headers>}
 */
const ofRecording = async text => {
  const pages = readHar(text, { parse: await htmlParser() }).pages.filter(it => it.role === 'page');
  const [first, ...others] = pages.map(({ url, lines, meta }) => ({ url, lines: [...lines, ...meta] }));
  const other = others.find(it => it.lines.join('\n') !== first.lines.join('\n'));
  if (other !== undefined) {
    const write = `Give the headers of one page: they differ on ${first.url} and ${other.url}`;
    throw new ReadingError({ said: 'the pages of this recording have different headers', write });
  }
  const said = `read as the headers of ${first.url} in a recording`;
  return { lines: first.lines, taken: [{ line: 1, said }], left: [] };
};

/**
 * @param {import('../index.js').Program} program
 * @param {string} member
 * @param {string} path
 * @param {Uint8Array} bytes
 * @returns {Promise<HeaderFile>}
 */
export const readHeaderFile = async (program, member, path, bytes) => {
  const text = new TextDecoder().decode(bytes), plain = isPlain(text);
  if (text.trim() === '') return { content: bytes, lines: [], line: 1, remarks: [] };
  try {
    const isHar = kindOf({ name: path, text }) === 'har';
    const parse = !isHar && /<[a-z!]/i.test(text) ? await htmlParser() : undefined;
    const { lines, taken, left } = isHar ? await ofRecording(text) : readHeaders(text, { parse });
    const isExact = plain && normal(text.split('\n')) === normal(lines);
    const isRefused = !plain && lines.length === 0 && left.length > 1;
    const remarks = [
      ...(isExact ? [] : taken).map(it => ({ path, ...it, isMark: false })),
      ...left.map(it => ({ path, ...it, isMark: true })), ...marksIn(program, lines, path),
    ];
    const content = isExact || isRefused ? bytes : lines.map(it => `${it}\n`).join('');
    const places = taken.filter(it => it.said.startsWith('read as'));
    const first = lines.findIndex(it => !/^[^:]*-report-only:/i.test(it));
    return { content, lines, line: places[first]?.line ?? 1, remarks };
  } catch (error) {
    throw refusalOfReading(error, BAD_POLICY, member);
  }
};
