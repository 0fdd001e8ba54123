/** What an item needs of a policy so that it is allowed, and what else can be done about it. */
import { urlOf } from '../readers/urls.js';
import { NONCE, nonceOf } from './items.js';
import { widerOf } from './policy.js';

/**
 * @typedef {import('./items.js').Item} Item
 * @typedef {object} Wish
 * @property {'hosts' | 'strict' | 'addition'} form
 * @property {'nonces' | 'hashes'} inline by what scripts and styles in a page are allowed that have no nonce
 * @property {boolean} unsafeHashes whether handlers, javascript: URLs and style attributes are allowed by
 * hashes
 * @typedef {object} Need
 * @property {string[]} sources none where no source is proposed
 * @property {boolean} isEdit whether the element has to get the nonce
 */

const HOST = /^[a-z0-9-]+(?:\.[a-z0-9-]+)*$/i;
// From these schemes whoever writes into the page takes whole scripts and documents with him.
const RISKS = /** @type {Record<string, string[]>} */ ({
  'script-src': ['data:', 'blob:', 'filesystem:'], 'object-src': ['data:', 'blob:', 'filesystem:'],
});

/**
 * The source for a URL on a page of an origin: no port where it is the scheme's own, and nothing where no
 * source can name the host.
 * @param {import('../requests.js').Url} url
 * @param {string} origin
 */
export const sourceOf = (url, origin) => {
  if (typeof url !== 'string' && url.host === undefined) return `${url.scheme}:`;
  const parsed = urlOf(typeof url === 'string' ? url : `${url.scheme}://${url.host}:${url.port ?? ''}/`);
  if (parsed === undefined) return undefined;
  if (!/^(?:https?|wss?):$/.test(parsed.protocol)) return parsed.protocol;
  if (parsed.origin === origin) return "'self'";
  return HOST.test(parsed.hostname) ? `${parsed.protocol}//${parsed.host}` : undefined;
};

/**
 * The hash of a text, as a source.
 * @param {string} text
 */
export const hashOf = async text => {
  const digest = await crypto.subtle.digest('SHA-256', new TextEncoder().encode(text));
  return `'sha256-${btoa(String.fromCharCode(...new Uint8Array(digest)))}'`;
};

const NOTHING = /** @type {Need} */ ({ sources: [], isEdit: false });

/** @param {Item} item by the nonce */
const byNonce = ({ request }) => ({ sources: [`'nonce-${NONCE}'`], isEdit: !nonceOf(request) });

/**
 * @param {Item} item
 * @param {Wish} wish
 * @returns {Promise<Need>}
 */
const needOfInline = async (item, { form, inline, unsafeHashes }) => {
  const { type, source } = item.request, isElement = type === 'script' || type === 'style';
  if (source === undefined) return NOTHING;
  if (!isElement) {
    return unsafeHashes ? { sources: ["'unsafe-hashes'", await hashOf(source)], isEdit: false } : NOTHING;
  }
  if (form !== 'addition' && (inline === 'nonces' || nonceOf(item.request))) return byNonce(item);
  return { sources: [await hashOf(source)], isEdit: false };
};

/**
 * What allows an item.
 * @param {Item} item
 * @param {string} effective the directive that doesn't allow it
 * @param {Wish} wish
 * @returns {Promise<Need>}
 */
export const needOf = async (item, effective, wish) => {
  const { request, origin } = item, urls = request.urls ?? (request.url === undefined ? [] : [request.url]);
  if (request.kind === 'inline') return needOfInline(item, wish);
  if (effective === 'script-src-elem' && wish.form === 'strict') {
    return request['parser-inserted'] ? byNonce(item) : { sources: ["'strict-dynamic'"], isEdit: false };
  }
  const sources = urls.map((/** @type {import('../requests.js').Url} */ it) => sourceOf(it, origin));
  const isRisk = (/** @type {string} */ it) => RISKS[widerOf(effective)]?.includes(it);
  const isNone = sources.length === 0 || sources.includes(undefined) || sources.some(isRisk);
  return isNone ? NOTHING : { sources: [...new Set(sources)], isEdit: false };
};

const INLINE = /** @type {Record<string, string>} */ ({
  'script-attribute': 'move it to a script, with addEventListener',
  navigation: 'make it a button with a listener in a script',
  'style-attribute': 'move it to a class in a style sheet',
  script: 'give it the nonce, or move it to a file',
  style: 'give it the nonce, or move it to a file',
});
const MADE = /** @type {Record<string, string>} */ ({
  'style-attribute': 'set the members of element.style in place of the attribute',
  style: 'set the nonce of the element in the script that makes it',
});
const OTHERS = /** @type {Record<string, string>} */ ({
  eval: "run no text as script; 'unsafe-eval' would let each script do it",
  wasm: "add 'wasm-unsafe-eval' to script-src, if the page compiles WebAssembly",
  capability: 'add it to sandbox',
});

/**
 * What to do about an item that isn't allowed.
 * @param {Item} item
 * @param {{ effective: string, isOfPage: boolean }} by what blocks it: a meta element of its page, perhaps
 */
export const adviceOf = ({ request, isReport, origin }, { effective, isOfPage }) => {
  const { kind, type, source, destination } = request;
  if (isOfPage) return `a meta element of the page blocks it: change its ${effective}`;
  if (kind === 'inline' && source !== undefined) return INLINE[type];
  if (kind === 'inline' && isReport) return 'reports have no text of it: give the HTML of the page';
  if (kind === 'inline') return MADE[type] ?? INLINE[type];
  if (OTHERS[kind] !== undefined) return OTHERS[kind];
  if (effective === 'script-src-elem' && destination === 'script') return 'give its element the nonce';
  const urls = request.urls ?? [request.url];
  const sources = urls.map((/** @type {any} */ it) => sourceOf(it, origin));
  if (sources.includes(undefined)) return 'serve it from a host that a source can name';
  return `allow it by ${sources.join(' and ')} in ${widerOf(effective)}, or leave it out`;
};
