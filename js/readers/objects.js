// Headers in objects: pairs of a name and a value in JSON of any shape, and the options of helmet.
import { ReadingError } from './error.js';
import { asciiLower, isDirective } from './words.js';

const NAME = /^content-security-policy(?:-report-only)?$/i;
// What helmet adds for each directive that its options leave out (helmet 4 to 8).
const HELMET = [
  ['default-src', "'self'"], ['base-uri', "'self'"], ['font-src', "'self' https: data:"],
  ['form-action', "'self'"], ['frame-ancestors', "'self'"], ['img-src', "'self' data:"],
  ['object-src', "'none'"], ['script-src', "'self'"], ['script-src-attr', "'none'"],
  ['style-src', "'self' https: 'unsafe-inline'"], ['upgrade-insecure-requests', ''],
];

/** @typedef {{name: string, value: string, as: string}} Pair */

/**
 * @param {unknown} it
 * @returns {it is Record<string, unknown>}
 */
const isObject = it => typeof it === 'object' && it !== null && !Array.isArray(it);

/** @param {string} name */
const dashed = name => name.replace(/[A-Z]/g, it => `-${asciiLower(it)}`);

/**
 * The value of one of helmet's directives: a text, or an array of texts.
 * @param {string} name
 * @param {unknown} value
 */
const words = (name, value) => {
  const list = Array.isArray(value) ? value : [value];
  const odd = list.find(it => typeof it !== 'string');
  if (odd === undefined) return list.join(' ');
  const said = `the value of ${name} is no text`, found = String(JSON.stringify(odd));
  throw new ReadingError({ said, found, write: 'Write an array of texts' });
};

/**
 * The policy that helmet makes of its options. A directive whose value is null is left out, its default too.
 * @param {Record<string, unknown>} options
 * @returns {Pair}
 */
const helmet = ({ directives, useDefaults, reportOnly }) => {
  const given = Object.entries(isObject(directives) ? directives : {})
    .map(([name, value]) => ({ name: dashed(name), value }));
  const own = given.filter(({ value }) => value !== null)
    .map(({ name, value }) => `${name} ${words(name, value)}`.trim());
  const left = useDefaults === false ? [] : HELMET.filter(([name]) => !given.some(it => it.name === name));
  const added = left.map(it => it.join(' ').trim());
  const more = `, with what helmet adds where useDefaults isn't false: ${added.join('; ')}`;
  const said = added.length === 0 ? '' : more;
  return {
    name: `Content-Security-Policy${reportOnly === true ? '-Report-Only' : ''}`,
    value: [...own, ...added].join('; '),
    as: `helmet's options${said}`,
  };
};

/** @param {unknown} value */
const isDirectives = value => {
  const names = isObject(value) ? Object.keys(value).map(dashed) : [];
  return names.length > 0 && names.every(isDirective);
};

/**
 * The name and value of a pair, in the words that tools have for them.
 * @param {unknown} it
 */
const pairOf = it => {
  if (Array.isArray(it)) return it.length === 2 ? it : [];
  return isObject(it) ? [it.name ?? it.key ?? it.header, it.value] : [];
};

/**
 * All pairs in a value whose name is that of a policy.
 * @param {unknown} value
 * @param {number} line where the value begins
 */
export const policyPairs = (value, line) => {
  try {
    return pairsOf(value);
  } catch (error) {
    throw error instanceof ReadingError ? error.in({ line }) : error;
  }
};

/**
 * @param {unknown} value
 * @returns {Pair[]}
 */
const pairsOf = value => {
  const as = 'a pair of a name and a value';
  if (isObject(value) && isObject(value.directives)) return [helmet(value)];
  if (isDirectives(value)) return [helmet({ directives: value })];
  const [name, text] = pairOf(value);
  const isPolicy = typeof name === 'string' && NAME.test(name);
  if (isPolicy && typeof text === 'string') return [{ name, value: text, as }];
  if (Array.isArray(value)) return value.flatMap(pairsOf);
  if (!isObject(value)) return [];
  return Object.entries(value).flatMap(([key, it]) => {
    if (!NAME.test(key)) return pairsOf(it);
    const texts = Array.isArray(it) ? it : [it];
    if (texts.every(of => typeof of === 'string')) return texts.map(of => ({ name: key, value: of, as }));
    if (!isDirectives(it)) return pairsOf(it);
    return [{ ...helmet({ directives: it, useDefaults: false }), name: key }];
  });
};
