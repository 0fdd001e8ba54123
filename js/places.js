/** Where something stands in a text, as people count: lines from 1. */

/**
 * The text of a line, without its line end.
 * @param {string} text
 * @param {number} line
 */
export const textOfLine = (text, line) => (text.split('\n')[line - 1] ?? '').replace(/\r$/, '');

/**
 * The items of a JSON array, well formed or not: the text of each, and the line on which it begins. After
 * a comma too many stands an empty item.
 * @param {string} text
 */
export const itemsOf = text => {
  /** @type {{ text: string, line: number }[]} */
  const items = [];
  let depth = 0, start = 0, line = 1, counted = 0;
  /** @param {number} end */
  const keep = end => {
    const begin = Math.min(end, start + text.slice(start, end).search(/\S|$/));
    line += text.slice(counted, begin).split('\n').length - 1;
    counted = begin;
    items.push({ text: text.slice(begin, end).trimEnd(), line });
  };
  for (const { 0: token, index = 0 } of text.matchAll(/"(?:[^"\\]|\\.)*"|[[\]{},]/gs)) {
    if (depth === 1 && (token === ',' || token === ']')) keep(index);
    if (token === '[' || token === '{') depth += 1;
    if (token === ']' || token === '}') depth -= 1;
    if (depth === 1 && (token === '[' || token === ',')) start = index + 1;
  }
  if (depth > 0) keep(text.length);
  return items;
};
