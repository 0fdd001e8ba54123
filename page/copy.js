/** An answer as text, as Markdown and as JSON, for a ticket. */
import { textOf } from './answer.js';

/**
 * @typedef {import('./answer.js').Answer} Answer
 * @typedef {import('./answer.js').Block} Block
 * @typedef {import('./answer.js').Cell} Cell
 */

/**
 * How the parts of a text are written.
 * @typedef {{ head: (text: string) => string[], item: (text: string, n?: number | false) => string,
 *   code: (text: string) => string[], table: (columns: string[], rows: Cell[][]) => string[],
 *   plain: (text: string) => string }} Style
 */

const GAP = '  ';

/** @param {number | false} [n] */
const pointOf = n => n ? `${n}.` : '-';

/** @type {Style} */
const TEXT = {
  head: text => ['', text], item: (text, n) => `${pointOf(n)} ${text}`, plain: text => text,
  code: text => text.trimEnd().split('\n').map(it => `    ${it}`),
  table: (columns, rows) => {
    const all = [columns, ...rows.map(row => row.map(textOf))];
    const widths = columns.map((_, n) => Math.max(...all.map(row => (row[n] ?? '').length)));
    return all.map(row => row.map((it, n) => it.padEnd(widths[n])).join(GAP).trimEnd());
  },
};

/** @param {string} text */
const escaped = text => text.replace(/[\\`*_[\]<>|#]/g, '\\$&').replace(/\s*\n\s*/g, ' ');

/** @param {string} text */
const inCode = text => {
  if (text === '') return '';
  const fence = text.includes('`') ? '``' : '`';
  return `${fence}${text.replace(/\|/g, '\\|').replace(/\n/g, ' ')}${fence}`;
};

/** @param {Cell} cell */
const markdownCell = cell =>
  typeof cell === 'object' && 'isCode' in cell && cell.isCode ? inCode(cell.text) : escaped(textOf(cell));

/** @type {Style} */
const MARKDOWN = {
  head: text => ['', `### ${escaped(text)}`, ''], item: (text, n) => `${pointOf(n)} ${escaped(text)}`,
  plain: escaped, code: text => ['```', text.trimEnd(), '```'],
  table: (columns, rows) => [
    `| ${columns.map(escaped).join(' | ')} |`, `|${columns.map(() => ' --- ').join('|')}|`,
    ...rows.map(row => `| ${row.map(markdownCell).join(' | ')} |`),
  ],
};

/**
 * @param {import('./answer.js').Group} group
 * @param {Style} style
 */
const groupLines = ({ badge, directive, of, count, because, todo, columns, rows }, style) => {
  const what = [directive, of].filter(it => it !== '').join(', ');
  const times = count > 1 ? ` (${count} times)` : '';
  const lines = [...because, ...todo].map(it => `  ${style.plain(textOf(it))}`);
  return [
    style.item(`${badge}: ${what}${times}`), ...lines,
    ...rows.length === 0 ? [] : ['', ...style.table(columns, rows), ''],
  ];
};

/**
 * @param {import('./answer.js').Matrix} matrix
 * @param {Style} style
 */
const matrixLines = ({ columns, rows, signs }, style) => [
  ...style.table(['', ...columns], rows.map(it => [it.directive, ...it.signs.map(of => of.sign)])), '',
  ...signs.map(it => style.item(`${it.sign} ${it.means}`)),
];

/**
 * @param {Block} block
 * @param {Style} style
 * @returns {string[]}
 */
const blockLines = (block, style) => {
  if (block.kind === 'paragraph') return ['', style.plain(textOf(block.text))];
  const head = style.head(textOf(block.head));
  switch (block.kind) {
    case 'list':
      return [...head, ...block.items.map((it, n) => style.item(textOf(it), block.isOrdered && n + 1))];
    case 'table': return [...head, ...style.table(block.columns, block.rows)];
    case 'code': return [...head, ...style.code(block.text)];
    case 'groups': return [...head, ...block.groups.flatMap(it => groupLines(it, style))];
    default: return [...head, ...matrixLines(block, style)];
  }
};

/**
 * @param {Answer} answer
 * @param {Style} style
 * @param {string[]} begin
 */
const linesOf = ({ more, blocks, unseen }, style, begin) => [
  ...begin, ...more.map(it => style.plain(textOf(it))),
  ...unseen.length === 0 ? [] : style.head('Not looked at, or known only in part'),
  ...unseen.map(it => style.item(textOf(it))), ...blocks.flatMap(it => blockLines(it, style)), '',
];

/** @param {Answer} answer */
export const asText = answer => linesOf(answer, TEXT, [textOf(answer.sentence)]).join('\n');

/** @param {Answer} answer */
export const asMarkdown = answer =>
  linesOf(answer, MARKDOWN, [`**${escaped(textOf(answer.sentence))}**`, '']).join('\n');

/**
 * @param {Answer} answer
 * @param {Record<string, unknown>} asked
 */
export const asJson = ({ sentence, more, unseen, data }, asked) => `${JSON.stringify({
  ...asked, sentence: textOf(sentence), more: more.map(textOf), unseen: unseen.map(textOf), answer: data,
}, null, 2)}\n`;
