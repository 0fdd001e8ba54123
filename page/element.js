/** Elements of the page, found and made. */
import { textOf } from './answer.js';

/**
 * @param {string} id
 * @returns {any}
 */
export const by = id => document.getElementById(id);

/**
 * @param {string} selector
 * @returns {any[]}
 */
export const all = selector => [...document.querySelectorAll(selector)];

/**
 * @param {string} tag
 * @param {Record<string, string | boolean>} attributes
 * @param {(string | Node)[]} content
 */
export const element = (tag, attributes = {}, ...content) => {
  const made = document.createElement(tag);
  for (const [name, value] of Object.entries(attributes)) {
    if (value !== false) made.setAttribute(name, value === true ? '' : value);
  }
  made.append(...content);
  return made;
};

/**
 * A sentence in an element that tells its name.
 * @param {string} tag
 * @param {import('./answer.js').Text} text
 * @param {Record<string, string | boolean>} attributes
 */
export const told = (tag, text, attributes = {}) => {
  const made = element(tag, attributes, textOf(text));
  if (typeof text === 'object') made.dataset.says = text.says;
  return made;
};
