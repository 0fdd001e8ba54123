/** What is known of policies and isn't proved: it rests on the words, and on how browsers and hosts are. */

/**
 * @typedef {{ said: string, policy: number, directive: string, token: string | null }} Known
 * @typedef {import('./policies.js').Policy} Policy
 * @typedef {{ policy: number, directive: string, token?: string }} Ground
 */

// A nonce has at least 128 random bits, which base64 writes in 22 characters.
const NONCE_LENGTH = 22;
const LEAST_DIFFERENT = 8;

const OBJECT = 'object-src is missing: old browsers run plugins from any host';
const BASE = 'base-uri is missing, and default-src doesn\'t stand in for it: a <base> moves scripts with '
  + 'relative URLs';
const A_PATH = 'the path counts for the first URL alone: by a redirect any script of this host may run';
const A_HOST = 'every script of this host may run: uploads of others, old libraries, answers that call what '
  + 'a URL names';

/**
 * @param {string} nonce
 * @returns {string[]}
 */
const nonceFaults = nonce => {
  const different = new Set(nonce).size, isWord = /^(?:[a-z_-]+|[A-Z_-]+|\d+)=*$/.test(nonce);
  return [
    ...nonce.length < NONCE_LENGTH
      ? ['a short nonce may be guessed: it needs 128 random bits, 22 characters of base64'] : [],
    ...isWord || different < LEAST_DIFFERENT
      ? ['this nonce looks like a constant: it has to be new and random in each response'] : [],
  ];
};

/**
 * @param {Policy} policy
 * @param {number} number
 * @returns {Known[]}
 */
const nonces = ({ directives }, number) => directives.flatMap(({ name, values }) => values.flatMap(token => {
  const nonce = /^'nonce-(.+)'$/i.exec(token)?.[1];
  const faults = nonce === undefined ? [] : nonceFaults(nonce);
  return faults.map(said => ({ said, policy: number, directive: name, token }));
}));

/**
 * @param {Policy} policy
 * @param {number} number
 * @returns {Known[]}
 */
const fallbacks = ({ disposition, directives }, number) => {
  /** @param {string} name */
  const has = name => directives.some(it => it.name === name);
  const isAboutScripts = has('script-src') || has('script-src-elem') || has('default-src');
  if (disposition === 'report' || !isAboutScripts) return [];
  return [
    ...has('object-src') || has('default-src') ? []
      : [{ policy: number, directive: 'object-src', token: null, said: OBJECT }],
    ...has('base-uri') ? [] : [{ policy: number, directive: 'base-uri', token: null, said: BASE }],
  ];
};

/**
 * The hosts from which markup may load scripts.
 * @param {readonly { group: string, can: string, policies: Ground[] }[]} rows
 * @returns {Known[]}
 */
const hosts = rows => rows.filter(it => it.group === 'named host' && it.can !== 'no')
  .flatMap(it => it.policies).flatMap(({ policy, directive, token }) =>
    token === undefined || token.startsWith("'") ? []
      : [{ policy, directive, token, said: /[^/]\/[^/]/.test(token) ? A_PATH : A_HOST }]);

/**
 * @param {readonly Policy[]} policies
 * @param {Parameters<typeof hosts>[0]} rows
 * @returns {Known[]}
 */
export const knownOf = (policies, rows) => {
  const all = [...policies.flatMap(nonces), ...hosts(rows), ...policies.flatMap(fallbacks)];
  const key = (/** @type {Known} */ it) => JSON.stringify(it);
  return all.filter((it, n) => all.findIndex(other => key(other) === key(it)) === n);
};
