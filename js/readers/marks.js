// Marks of what in a policy is probably not what its writer meant, in what the engine read of it.
import { asciiLower, DEPRECATED, DIRECTIVES, KEYWORDS, isDirective, nearest } from './words.js';

/**
 * @typedef {import('../answers.js').Reading} Reading
 * @typedef {import('../answers.js').Directive} Directive
 * @typedef {import('../answers.js').Dropped} Dropped
 * @typedef {import('../answers.js').Policy} Policy
 * @typedef {{ policy: number | null, directive: string, said: string }} Mark the number of the policy, from
 * 0, or null where nothing is left of it
 */

// Directives whose values aren't sources.
const NO_SOURCES = [
  'sandbox', 'report-uri', 'report-to', 'require-trusted-types-for', 'trusted-types', 'webrtc',
];
const BARE = /^(?:nonce-\S+|sha(?:256|384|512)-\S+)$/i;

/** @typedef {(directive: Directive, policy: Policy & { isFirst: boolean }) => (string | undefined)[]} Rule */

/** @type {Rule} */
const semicolon = ({ name, tokens }) => NO_SOURCES.includes(name) ? [] : tokens
  .filter(it => isDirective(asciiLower(it.text)))
  .map(it => `${it.text} names a directive, and counts as a source here: is a semicolon missing before it?`);

/** @type {Rule} */
const comma = (directive, { isFirst, meta, directives }) => {
  const { name, tokens } = directive;
  const isBehind = !isFirst && directives[0] === directive && !isDirective(name);
  const inMeta = meta ? tokens.filter(it => it.text.includes(',')) : [];
  return [
    isBehind ? `a comma stands before ${name}, and begins another policy: was a space meant?` : undefined,
    ...inMeta.map(it => `${it.text} has a comma, which a meta element keeps in the word: was a space meant?`),
  ];
};

/** @type {Rule} */
const names = (directive, { isFirst, directives }) => {
  const { name, decides } = directive, old = DEPRECATED.get(name);
  if (old !== undefined) return [`browsers pass over ${name}: ${old}`];
  if (decides || isDirective(name) || !isFirst && directives[0] === directive) return [];
  const near = nearest(name.replace(/:$/, ''), DIRECTIVES);
  return [`${name} is no directive, and decides nothing${near === undefined ? '' : `: write ${near}`}`];
};

/** @type {Rule} */
const keywords = ({ name, tokens }) => NO_SOURCES.includes(name) ? [] : tokens.map(({ text, kind }) => {
  const word = asciiLower(text), isBare = BARE.test(text) || KEYWORDS.includes(`'${word}'`);
  if (kind === 'host' && isBare) return `${text} without quotes is a host of that name: write '${text}'`;
  if (kind !== 'other' || !/^["'].*["']$/.test(text) || KEYWORDS.includes(word)) return undefined;
  const near = nearest(word.replace(/"/g, "'"), KEYWORDS);
  return `${text} matches nothing${near === undefined ? '' : `: write ${near}`}`;
});

/** @type {Rule} */
const voided = ({ tokens }) => {
  const words = tokens.map(it => asciiLower(it.text)), kinds = tokens.map(it => it.kind);
  const by = [
    ...kinds.includes('nonce') ? ['a nonce'] : [], ...kinds.includes('hash') ? ['a hash'] : [],
    ...words.includes("'strict-dynamic'") ? ["'strict-dynamic'"] : [],
  ];
  const isVoid = words.includes("'unsafe-inline'") && by.length > 0;
  return [isVoid ? `'unsafe-inline' has no effect beside ${by.join(' and ')}` : undefined];
};

/** @type {Rule} */
const none = ({ tokens }) => [tokens.length > 1 && tokens.some(it => it.kind === 'none')
  ? "'none' has no effect beside other sources" : undefined];

const RULES = [semicolon, comma, names, keywords, voided, none];

/** @param {string} text a piece with a character outside ASCII */
const quoted = text => {
  const found = /[\u2018\u2019\u201A\u201B\u201C\u201D\u2032\u2033\u00B4]/.exec(text)?.[0];
  const drops = 'makes browsers drop the directive';
  return found === undefined ? `a character outside ASCII ${drops}`
    : `"${found}" is a typographic quote, which ${drops}: write '`;
};

/**
 * The mark of a piece that is dropped. Of a policy nothing is left where no piece of it may stand there.
 * @param {Dropped} piece
 * @returns {Mark[]}
 */
const droppedMark = ({ dropped, reason, policy }) => {
  const directive = asciiLower(/[^\s;]+/.exec(dropped)?.[0] ?? '');
  if (directive === '') return [];
  const said = reason === 'duplicate' ? `${directive} stands twice: the first one counts`
    : /[^\0-\x7f]/.test(dropped) ? quoted(dropped)
      : `${directive} has no effect in a meta element: write it in a header`;
  return [{ policy, directive, said }];
};

/**
 * The marks of what the engine read: for each policy those of its directives, and then those of what is
 * dropped of it.
 * @param {Reading} reading
 * @returns {Mark[]}
 */
export const marksOf = ({ policies, dropped }) => [
  ...policies.flatMap((policy, n) => {
    const placed = { ...policy, isFirst: policies[n - 1]?.line !== policy.line };
    const kept = policy.directives.flatMap(directive => RULES.flatMap(rule => rule(directive, placed))
      .flatMap(said => said === undefined ? [] : [{ policy: n, directive: directive.name, said }]));
    return [...kept, ...dropped.filter(it => it.policy === n).flatMap(droppedMark)];
  }),
  ...dropped.filter(it => it.policy === null).flatMap(droppedMark),
];
