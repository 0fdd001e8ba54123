/** What is said of what an attacker could do: audit. */
import { counted } from './judged.js';
import { MEANS_NOTHING } from './compared.js';
import { plain, wrapped } from './page.js';

/**
 * @typedef {import('./words.js').Asked} Asked
 * @typedef {import('./words.js').Told} Told
 * @typedef {import('../audit.js').Audit} Audit
 * @typedef {import('../audit.js').Row} Row
 */

const COLOURS = /** @type {const} */ ({ yes: 'red', reported: 'yellow', no: 'green' });

/**
 * Rows of one action with one answer, as one.
 * @param {Row[]} rows
 */
const merged = rows => {
  /** @type {Map<string, { row: Row, from: string[] }>} */
  const groups = new Map();
  for (const row of rows) {
    const key = JSON.stringify([row.action, row.can, row.because, row.stops.map(it => it.text)]);
    const group = groups.get(key) ?? { row, from: [] };
    groups.set(key, { row, from: [...group.from, ...row.from === undefined ? [] : [row.from]] });
  }
  return [...groups.values()]
    .map(({ row, from }) => ({ row, what: `${row.action} ${from.join(', ')}`.trim() }));
};

/**
 * @param {ReturnType<typeof merged>[0]} merged
 * @param {number} policies
 * @param {import('./page.js').Page} page
 */
const linesOf = ({ row: { can, because, stops, with: needs }, what }, policies, page) => {
  const where = (/** @type {number | null} */ it) =>
    policies < 2 ? '' : it === null ? ' in a new policy' : ` in policy ${it + 1}`;
  const to = stops.map(it => `${it.text}${where(it.policy)}`).join('; or ');
  const [first, ...more] = wrapped(`${can.padEnd(8)} ${what}`, page, ' '.repeat(9));
  const said = [`${because}.`, ...needs === undefined ? [] : [`It takes ${needs}.`],
    ...to === '' ? [] : [`To stop it: ${to}.`]].join(' ');
  return [
    first.replace(can, it => page.paint(it, COLOURS[can])), ...more,
    ...wrapped(`${' '.repeat(9)}${said}`, page, ' '.repeat(9)),
  ];
};

/** @param {Row} row whether it runs what the attacker wrote, and takes no more than markup */
const isCode = ({ runs, can, with: needs }) => runs && can !== 'no' && needs === undefined;

/**
 * @param {Audit} audit
 * @param {string} name
 * @returns {Pick<Told, 'mood' | 'sentence' | 'status'>}
 */
const summed = ({ rows, blocksNothing }, name) => {
  const possible = rows.filter(it => it.can !== 'no'), code = possible.filter(isCode);
  const hosted = possible.filter(it => it.runs && !isCode(it)), rest = possible.filter(it => !it.runs);
  const others = rest.length === 0 ? '' : ` What else is possible: ${counted(rest.length, 'thing')} above.`;
  if (blocksNothing) {
    const sentence = `${name} blocks nothing of this: all of it is possible.`;
    return { mood: 'red', sentence, status: MEANS_NOTHING };
  }
  if (code.length > 0) {
    const sentence = `Injected markup could run code, in ${counted(code.length, 'way')}.${others}`;
    return { mood: 'red', sentence, status: 1 };
  }
  const more = hosted.length === 0 ? '' : ' by itself, but with more it could, in '
    + counted(hosted.length, 'way');
  const sentence = `Injected markup couldn't run code${more}.`;
  return { mood: possible.length > 0 ? 'yellow' : 'green', sentence: sentence + others, status: 0 };
};

/**
 * What isn't possible, in a line, with the directive that blocks it.
 * @param {ReturnType<typeof merged>[0]} merged
 * @param {import('./page.js').Page} page
 */
const notLines = ({ row: { because }, what }, page) => {
  const text = `no       ${what} (${because.replace(/ blocks it$/, '')})`;
  return wrapped(text, page, ' '.repeat(9)).map(it => it.replace(/^no /, `${page.paint('no', 'green')} `));
};

/**
 * @param {Audit['known']} known
 * @param {import('./page.js').Page} page
 */
const knownLines = (known, page) => {
  const facts = known.map(({ said, directive, token }) =>
    `- ${token === null ? directive : `${directive} ${token}`}: ${said}`);
  return facts.length === 0 ? []
    : ['Known, and not proved:', ...facts.flatMap(it => wrapped(plain(it), page, '  ')), ''];
};

const COVERS = 'for an attacker who writes markup into it and knows no nonce. One host that no policy names '
  + 'stands for all of them, one script without a nonce for all.';

/**
 * @param {Audit} answer
 * @param {Asked} asked
 * @returns {Told}
 */
export const tellAudit = (answer, { names, lines, origin, page }) => {
  const { rows, known, notCovered } = answer, policies = rows[0].policies.length;
  const possible = rows.filter(it => it.can !== 'no'), not = merged(rows.filter(it => it.can === 'no'));
  return {
    lines: [
      ...merged(possible).flatMap(it => linesOf(it, policies, page)),
      ...not.flatMap(it => notLines(it, page)), '', ...knownLines(known, page),
    ],
    ...summed(answer, names.headers), warnings: [],
    covers: `On a page of ${origin}, ${COVERS}`,
    unseen: notCovered,
    findings: () => possible.filter(it => it.runs).map(it => ({
      rule: it.group, level: isCode(it) ? 'error' : 'warning', file: names.headers, line: lines.headers,
      message: plain(it.sentence),
    })),
  };
};
