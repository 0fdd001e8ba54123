/** Shows an answer in the page. */
import { ALLOWING, counted, number, textOf } from './answer.js';
import { element, told } from './element.js';

/**
 * @typedef {import('./answer.js').Answer} Answer
 * @typedef {import('./answer.js').Block} Block
 * @typedef {import('./answer.js').Cell} Cell
 * @typedef {import('./answer.js').Text} Text
 */

/** @param {Cell} cell */
const cellContent = cell => {
  if (typeof cell === 'string' || 'says' in cell) return [textOf(cell)];
  if (cell.mood !== undefined) return [element('span', { class: `badge ${cell.mood}` }, cell.text)];
  return cell.isCode && cell.text !== '' ? [element('code', {}, cell.text)] : [cell.text];
};

/**
 * A table, whose caption stands above it as a heading too. A column without a text is left out.
 * @param {Text} caption
 * @param {string[]} columns
 * @param {Cell[][]} rows
 */
const tableOf = (caption, columns, rows) => {
  const used = columns.map((_, n) => rows.some(row => row[n] !== undefined && textOf(row[n]) !== ''));
  const kept = (/** @type {any[]} */ all) => all.filter((_, n) => used[n]);
  const head = element('tr', {}, ...kept(columns).map(it => element('th', { scope: 'col' }, it)));
  const body = rows.map(row => element('tr', {}, ...kept(row).map((it, n) =>
    element('td', { 'data-column': kept(columns)[n] }, ...cellContent(it)))));
  const parts = [element('caption', { class: 'unseen' }, textOf(caption)), element('thead', {}, head)];
  return element('div', { class: 'wide' }, element('table', {}, ...parts, element('tbody', {}, ...body)));
};

const FEW = 3;

/**
 * One of few places as a line. What would allow it is told below.
 * @param {Cell[]} row
 * @param {string[]} columns
 */
const lineOf = (row, columns) => element('p', { class: 'place' }, ...row
  .filter((it, n) => textOf(it) !== '' && columns[n] !== ALLOWING)
  .flatMap((it, n) => [...n === 0 ? [] : [' · '], ...cellContent(it)]));

/**
 * @param {import('./answer.js').Group} group
 * @param {string} name
 */
const placesOf = ({ columns, rows }, name) => {
  if (rows.length <= FEW) return rows.map(it => lineOf(it, columns));
  const summary = element('summary', {}, counted(rows.length, 'place'));
  return [element('details', {}, summary, tableOf(name, columns, rows))];
};

/**
 * @param {string} text what stands on a button
 * @param {Record<string, string>} attributes
 */
const button = (text, attributes) => element('button', { type: 'button', ...attributes }, text);

/** @param {import('./answer.js').Group} group */
const groupOf = group => {
  const { mood, badge, directive, of, count, because, todo, copy } = group;
  const head = element('p', { class: 'head' },
    element('span', { class: `badge ${mood}` }, badge), ' ', element('strong', {}, directive), ' ', of,
    ...count > 1 ? [' ', element('span', { class: 'count' }, `× ${number(count)}`)] : []);
  const all = copy === undefined ? []
    : [element('p', { class: 'buttons' }, button('Copy all sources', { 'data-copy': copy }))];
  return element('li', { class: `group ${mood}` }, head, ...placesOf(group, `${badge} ${directive} ${of}`),
    ...[...because, ...todo].map(it => told('p', it)), ...all);
};

/** @param {import('./answer.js').Sign} sign */
const signCell = ({ sign, mood = 'plain', means }) => element('td', { class: mood, title: means },
  element('span', { 'aria-hidden': 'true' }, sign), element('span', { class: 'unseen' }, means));

/** @param {import('./answer.js').Matrix} block */
const matrixOf = ({ head, columns, rows, signs }) => {
  const heads = columns.map(it => element('th', { scope: 'col' }, element('span', {}, it)));
  const body = rows.map(it =>
    element('tr', {}, element('th', { scope: 'row' }, it.directive), ...it.signs.map(signCell)));
  const table = element('table', {}, element('caption', { class: 'unseen' }, textOf(head)),
    element('thead', {}, element('tr', {}, element('td'), ...heads)), element('tbody', {}, ...body));
  const attributes = { 'class': 'wide', 'tabindex': '0', 'role': 'group', 'aria-label': textOf(head) };
  const key = signs.map(({ sign, mood = 'plain', means }) =>
    element('li', {}, element('span', { class: mood }, sign), ` ${means}`));
  const wide = element('div', attributes, table);
  return element('figure', {}, told('figcaption', head), wide, element('ul', { class: 'key' }, ...key));
};

/** @param {import('./answer.js').Code} block */
const codeOf = ({ text, file }) => {
  const save = file === undefined ? [] : [button('Save', { 'data-save': file, 'data-text': text })];
  return element('div', {}, element('pre', { tabindex: '0' }, text),
    element('p', { class: 'buttons' }, button('Copy', { 'data-copy': text }), ...save));
};

/** @param {Exclude<Block, import('./answer.js').Paragraph>} block */
const contentOf = block => {
  switch (block.kind) {
    case 'list': return element(block.isOrdered ? 'ol' : 'ul', {}, ...block.items.map(it => told('li', it)));
    case 'table': return tableOf(block.head, block.columns, block.rows);
    case 'code': return codeOf(block);
    case 'groups': return element('ul', { class: 'groups' }, ...block.groups.map(groupOf));
    default: return matrixOf(block);
  }
};

/** @param {Block} block */
const blockOf = block => {
  if (block.kind === 'paragraph') return told('p', block.text);
  const content = contentOf(block), attributes = { class: `block ${block.kind}` };
  if (block.kind === 'matrix') return element('section', attributes, content);
  if (block.isFolded) return element('details', attributes, told('summary', block.head), content);
  return element('section', attributes, told('h3', block.head), content);
};

const UNSEEN = 'Not looked at, or known only in part';

/**
 * @param {Answer} answer
 * @returns {HTMLElement}
 */
export const shown = ({ mood, sentence, more, blocks, unseen }) => {
  const says = element('div', { class: `says ${mood}` }, told('p', sentence, { class: 'sentence' }),
    ...more.map(it => told('p', it)));
  const aside = element('aside', { 'aria-label': UNSEEN }, element('h3', {}, UNSEEN),
    element('ul', {}, ...unseen.map(it => told('li', it))));
  const copies = element('p', { class: 'buttons copies' }, 'Copy this answer as ',
    ...['text', 'Markdown', 'JSON'].map(it => button(it, { 'data-as': it })));
  return element('div', {}, says, copies,
    ...unseen.length === 0 ? [] : [aside], ...blocks.map(blockOf));
};
