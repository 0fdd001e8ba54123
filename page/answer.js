/** What an answer is, before it is shown or copied: plain data, which a worker can hand over. */

/**
 * @typedef {'good' | 'warn' | 'bad' | 'plain'} Mood
 * @typedef {string | { says: string, text: string }} Text a text, or a sentence of sentences.js with its name
 * @typedef {Text | { text: string, mood?: Mood, isCode?: boolean }} Cell
 */

/**
 * Things that are alike: what `of`, how many, why, and what to do. `rows` are its places, `copy` a text to be
 * copied.
 * @typedef {{ mood: Mood, badge: string, directive: string, of: string, count: number, because: Text[],
 *   todo: Text[], copy?: string, columns: string[], rows: Cell[][] }} Group
 */

/**
 * A picture of policies: rows of directives, columns of hosts. A cell has a sign and its meaning.
 * @typedef {{ sign: string, mood?: Mood, means: string }} Sign
 * @typedef {{ directive: string, signs: Sign[] }} MatrixRow
 */

/**
 * @typedef {{ kind: 'paragraph', text: Text }} Paragraph
 * @typedef {{ kind: 'list', head: Text, items: readonly Text[], isFolded?: boolean,
 *   isOrdered?: boolean }} List
 * @typedef {{ kind: 'table', head: Text, columns: string[], rows: Cell[][], isFolded?: boolean }} Table
 * @typedef {{ kind: 'code', head: Text, text: string, file?: string, isFolded?: boolean }} Code
 * @typedef {{ kind: 'groups', head: Text, groups: Group[], isFolded?: boolean }} Groups
 * @typedef {{ kind: 'matrix', head: Text, columns: string[], rows: MatrixRow[], signs: Sign[],
 *   isFolded?: boolean }} Matrix
 * @typedef {Paragraph | List | Table | Code | Groups | Matrix} Block
 */

/**
 * `mood` is the colour of the sentence; `more` stands below it, `unseen` beside it, since it tells what was
 * not looked at. `data` is the answer for programs.
 * @typedef {{ mood: Mood, sentence: Text, more: Text[], blocks: Block[], unseen: Text[], data: unknown
 *   }} Answer
 */

/** The column that tells what would allow a thing. */
export const ALLOWING = 'To allow it';

/** @param {Cell} cell */
export const textOf = cell => typeof cell === 'string' ? cell : cell.text;

/** @param {string} text */
export const code = text => ({ text, isCode: true });

/**
 * A list, or none where it would be empty.
 * @param {Text} head
 * @param {readonly Text[]} items
 * @param {{ isFolded?: boolean, isOrdered?: boolean }} [more]
 * @returns {Block[]}
 */
export const list = (head, items, more) => items.length === 0 ? [] : [{ kind: 'list', head, items, ...more }];

/**
 * A table, or none where it would be empty.
 * @param {Text} head
 * @param {string[]} columns
 * @param {Cell[][]} rows
 * @param {{ isFolded?: boolean }} [more]
 * @returns {Block[]}
 */
export const table = (head, columns, rows, more) =>
  rows.length === 0 ? [] : [{ kind: 'table', head, columns, rows, ...more }];

/**
 * Groups, or none.
 * @param {Text} head
 * @param {Group[]} groups
 * @returns {Block[]}
 */
export const grouped = (head, groups) => groups.length === 0 ? [] : [{ kind: 'groups', head, groups }];

/**
 * A text to be copied, or none.
 * @param {Text} head
 * @param {string | null | undefined} text
 * @param {{ file?: string, isFolded?: boolean }} [more]
 * @returns {Block[]}
 */
export const copied = (head, text, more) => text ? [{ kind: 'code', head, text, ...more }] : [];

/** @param {number} count with a comma at each thousand; the browser's own formatter takes long to begin */
export const number = count => String(count).replace(/\B(?=(\d{3})+$)/g, ',');

/**
 * A count and its noun, as `1 request` and `2 requests`.
 * @param {number} count
 * @param {string} noun
 */
export const counted = (count, noun) => `${number(count)} ${noun}${count === 1 ? '' : 's'}`;

const ORDINALS = ['first', 'second', 'third', 'fourth', 'fifth', 'sixth', 'seventh', 'eighth'];

/** @param {number} policy counted from 0 */
export const ordinal = policy => ORDINALS[policy] ?? `${policy + 1}th`;

/** @param {readonly string[]} texts as `a, b and c` */
export const joined = texts => texts.length < 2 ? texts.join('')
  : `${texts.slice(0, -1).join(', ')} and ${texts[texts.length - 1]}`;

/**
 * Things by a key, in the order of the first of each.
 * @template T
 * @param {readonly T[]} all
 * @param {(it: T) => string} keyOf
 * @returns {T[][]}
 */
export const groupedBy = (all, keyOf) => {
  const groups = /** @type {Map<string, T[]>} */ (new Map());
  for (const it of all) {
    const key = keyOf(it), group = groups.get(key);
    if (group === undefined) groups.set(key, [it]);
    else group.push(it);
  }
  return [...groups.values()];
};
