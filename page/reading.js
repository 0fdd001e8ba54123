/** How headers were read: what is probably not meant so, and the policies as they stand. */
import { read } from '../js/index.js';
import { readPolicies } from '../js/policies.js';
import { marksOf } from '../js/readers/marks.js';
import { code, list, ordinal, table } from './answer.js';
import { say } from './sentences.js';

/** @typedef {import('../js/index.js').Program} Program */

/**
 * Header lines, and what stood beside them and wasn't taken.
 * @typedef {{ name: string, lines: string[], left?: import('../js/readers/html.js').Said[] }} Reading
 */

/** @param {readonly string[]} lines header lines as one text */
export const headersText = lines => lines.map(it => `${it}\n`).join('');

/**
 * @param {Program} program
 * @param {readonly string[]} lines
 */
export const policiesIn = (program, lines) => readPolicies(program, { headers: headersText(lines) });

/**
 * @param {Program} program
 * @param {Reading} reading
 * @param {boolean} several
 */
const marksIn = (program, { name, lines, left = [] }, several) => {
  const reading = read(program, { headers: headersText(lines) }), of = several ? `${name}: ` : '';
  return [
    ...left.map(({ line, said }) => `${of}${line === undefined ? '' : `line ${line}: `}${said}`),
    ...marksOf(reading).map(({ policy, said }) =>
      `${of}${policy !== null && reading.policies.length > 1 ? `${ordinal(policy)} policy: ` : ''}${said}`),
  ];
};

/**
 * A row for each directive.
 * @param {Program} program
 * @param {Reading} reading
 * @param {boolean} several
 */
const rowsIn = (program, { name, lines }, several) =>
  policiesIn(program, lines).flatMap(({ disposition, isMeta, directives }) => directives.map(it => [
    ...several ? [name] : [], isMeta ? 'meta element' : 'header',
    disposition === 'report' ? 'only reports' : 'enforced', code(it.name), code(it.values.join(' ')),
  ]));

/**
 * The marks, which are shown, and the directives, which are folded.
 * @param {Program} program
 * @param {Reading[]} readings
 */
export const readingBlocks = (program, readings) => {
  const several = readings.length > 1, marks = readings.flatMap(it => marksIn(program, it, several));
  const rows = readings.flatMap(it => rowsIn(program, it, several));
  const columns = [...several ? ['Page'] : [], 'From', 'It is', 'Directive', 'Values'];
  return [
    ...list(say('marked'), [...new Set(marks)]),
    ...table(say('howRead', rows.length), columns, rows, { isFolded: true }),
  ];
};

/**
 * The distinct header lines of pages.
 * @param {readonly import('../js/readers/site.js').SitePage[]} pages
 */
export const readingsOf = pages => {
  const found = /** @type {Map<string, Reading>} */ (new Map());
  for (const { url, file, lines, meta } of pages) {
    const all = [...lines, ...meta], key = all.join('\n');
    if (all.length > 0 && !found.has(key)) found.set(key, { name: url || file, lines: all });
  }
  return [...found.values()];
};
