/** Nonces of two responses of one server, given the same names. */

/**
 * @typedef {import('./policies.js').Policy} Policy
 * @typedef {{ from: string, to: string }} Renaming a nonce of the new headers, and the one of the old headers
 *   whose name it got
 */

const NONCE = /^'nonce-(.+)'$/i;

/**
 * The nonces, each once, in the order of the names of the directives that have them.
 * @param {readonly Policy[]} policies
 */
export const noncesOf = policies => {
  const directives = policies.flatMap(it => it.directives)
    .sort((a, b) => Number(a.name > b.name) - Number(a.name < b.name));
  return [...new Set(directives.flatMap(it => it.values).flatMap(it => NONCE.exec(it)?.[1] ?? []))];
};

/**
 * The new policies with the nonces of the old ones, where both have as many: a server makes a nonce for each
 * response. A nonce that both have keeps its name.
 * @param {Policy[]} policies
 * @param {readonly Policy[]} old
 * @returns {{ policies: Policy[], renamed: Renaming[] }}
 */
export const renamed = (policies, old) => {
  const ours = noncesOf(policies), theirs = noncesOf(old);
  if (ours.length !== theirs.length) return { policies, renamed: [] };
  const free = theirs.filter(it => !ours.includes(it));
  const changed = ours.filter(it => !theirs.includes(it)).map((from, n) => ({ from, to: free[n] }));
  const names = new Map(changed.map(({ from, to }) => [from, to]));
  /** @param {string} value */
  const named = value => {
    const to = names.get(NONCE.exec(value)?.[1] ?? '');
    return to === undefined ? value : `'nonce-${to}'`;
  };
  const written = policies.map(policy => ({ ...policy, directives:
    policy.directives.map(it => ({ ...it, values: it.values.map(named) })) }));
  return { policies: written, renamed: changed };
};
