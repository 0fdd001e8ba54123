/** What was not looked at of pages, or is known only in part: a line each, with its pages. */
import { ENFORCED } from '../js/readers/har.js';
import { number } from './answer.js';

/** @typedef {import('../js/readers/html.js').Said} Said */

/** @param {Said} said */
const placed = ({ line, said }) => line === undefined ? said : `line ${line}: ${said}`;

/** @param {string} text */
const upper = text => text.charAt(0).toUpperCase() + text.slice(1);

/**
 * @param {import('../js/readers/site.js').Site} site
 * @returns {string[]}
 */
export const unseenOf = ({ pages, left, events }) => {
  const said = /** @type {Map<string, Set<string>>} */ (new Map());
  const add = (/** @type {string} */ file, /** @type {string} */ text) =>
    said.set(text, (said.get(text) ?? new Set()).add(file));
  for (const it of pages) {
    const name = it.url || it.file;
    for (const text of it.unseen) if (!text.endsWith(ENFORCED)) add(name, text);
    for (const of of it.left) add(name, placed(of));
  }
  for (const it of events) for (const text of [...it.unseen, ...it.left.map(placed)]) add(it.file, text);
  for (const it of left) add(it.file, placed(it));
  const isOne = pages.length + left.length + events.length < 2;
  return [...said].map(([text, where]) => {
    const names = where.size > 1 ? `${number(where.size)} pages` : [...where][0];
    return isOne || where.size === pages.length ? upper(text) : `${names}: ${text}`;
  });
};
