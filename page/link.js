/** What stands in the page, as the end of its address. */
import { EXAMPLE } from './example.js';

// Programs that people send links by cut longer ones off.
const MOST = 8000;

/** @param {Record<string, unknown>} state */
export const linkOf = state => {
  const hash = `#${encodeURIComponent(JSON.stringify(state))}`;
  return hash.length > MOST ? undefined : hash;
};

/**
 * @param {string} hash
 * @returns {Record<string, any> | undefined} nothing where it is no link of this page
 */
export const stateOf = hash => {
  try {
    const state = JSON.parse(decodeURIComponent(hash.slice(1)));
    return typeof state === 'object' && state !== null ? state : undefined;
  } catch {
    return undefined;
  }
};

/** What stands in the page that is opened without a link. */
export const beginning = () => ({
  tab: 'blocked', origin: EXAMPLE.origin, headers: EXAMPLE.headers, newer: EXAMPLE.newer, isExample: true,
  files: [{ name: 'index.html', kind: 'html', text: EXAMPLE.page, url: `${EXAMPLE.origin}/` }],
});
