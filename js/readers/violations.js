// What a browser says of a violation, in an event, in its console or in a report, under one name each;
// and the request that was blocked.

/**
 * @typedef {object} Violation
 * @property {string} directive the directive for what was blocked
 * @property {string} blocked a URL, or only its scheme, or `inline`, `eval` or `wasm-eval`
 * @property {string} disposition `enforce` or `report`; empty where it isn't told
 * @property {string} policy the policy, or of a line of a console one directive of it
 * @property {string} page the URL of the page
 * @property {string} file the URL of the script or page in which it happened
 * @property {number} [line]
 * @property {number} [column]
 * @property {string} sample the begin of the code
 * @typedef {import('./html.js').Request} Request
 * @typedef {object} Blocked what was blocked, as far as a violation tells it
 * @property {Request} [request]
 * @property {string} [leftOut] why no request can be made of it
 * @property {'text' | 'parser'} [unknown] what isn't told: the text of inline code, or whether the parser
 * inserted it
 */

const DESTINATIONS = /** @type {Record<string, string>} */ ({
  'connect-src': '', 'font-src': 'font', 'frame-src': 'iframe', 'img-src': 'image',
  'manifest-src': 'manifest',
  'media-src': 'video', 'object-src': 'object', 'script-src': 'script', 'script-src-elem': 'script',
  'style-src': 'style', 'style-src-elem': 'style', 'worker-src': 'worker',
});
const INLINE = /** @type {Record<string, string>} */ ({
  'script-src-elem': 'script', 'script-src-attr': 'script-attribute', 'style-src-elem': 'style',
  'style-src-attr': 'style-attribute',
});
// No text has these digests, so that no hash in a policy allows what has them.
const DIGESTS = { sha256: '0'.repeat(64), sha384: '0'.repeat(96), sha512: '0'.repeat(128) };
const URL_TEXT = /^(https?|wss?):\/\/[^/?#\s]+[^\s]*$/;
// Schemes of browsers, of their extensions, and of what apps inject
const NOISE = /^(?:about|chrome|edge|resource|webkit-masked-url|mx\w+|wvjbscheme|[a-z-]*extension)(?::|$)/i;

/** @param {unknown} it */
const text = it => typeof it === 'string' ? it : '';

/** @param {unknown} it a line or a column, of which 0 says that it isn't known */
const place = it => typeof it === 'number' && it > 0 ? it : undefined;

/** @param {Record<string, any>} it the members of a body of either form, or of an event */
const directiveOf = it => text(it.effectiveDirective || it['effective-directive'] || it.violatedDirective
  || it['violated-directive']).trim().split(/\s/)[0];

/**
 * Whether an object is the body of a report or an event.
 * @param {unknown} it
 * @returns {it is Record<string, any>}
 */
export const isBody = it => typeof it === 'object' && it !== null
  && directiveOf(/** @type {Record<string, any>} */ (it)) !== '';

/**
 * The violation that the body of a report tells, or an event.
 * @param {Record<string, any>} it
 * @returns {Violation}
 */
export const violationOf = it => ({
  directive: directiveOf(it),
  blocked: text(it.blockedURL ?? it.blockedURI ?? it['blocked-uri']),
  disposition: text(it.disposition),
  policy: text(it.originalPolicy ?? it['original-policy']),
  page: text(it.documentURL ?? it.documentURI ?? it['document-uri']),
  file: text(it.sourceFile ?? it['source-file']),
  line: place(it.lineNumber ?? it['line-number']),
  column: place(it.columnNumber ?? it['column-number']),
  sample: text(it.sample ?? it['script-sample']),
});

/**
 * The scheme of a browser or an extension that caused a violation, so that no page can mend it; else nothing.
 * @param {Violation} violation
 */
export const noiseOf = ({ blocked, file }) =>
  [blocked, file].find(it => NOISE.test(it))?.split(':')[0].toLowerCase();

/**
 * Whether the directive that decides about script elements has 'strict-dynamic'.
 * @param {string} policy
 */
const isStrict = policy => {
  const all = policy.toLowerCase().split(';').map(it => it.trim().split(/\s+/));
  const words = ['script-src-elem', 'script-src', 'default-src'].map(name => all.find(it => it[0] === name));
  return (words.find(it => it !== undefined) ?? []).includes("'strict-dynamic'");
};

/**
 * The request that was blocked.
 * @param {Violation} violation
 * @returns {Blocked}
 */
export const blockedBy = violation => {
  const { directive, blocked, sample, policy } = violation, note = noteOf(violation);
  const isNavigation = sample.startsWith('javascript:') && directive === 'script-src-elem';
  const inline = isNavigation ? 'navigation' : INLINE[directive], isUrl = URL_TEXT.test(blocked);
  if (blocked === 'eval') return { request: { kind: 'eval', note } };
  if (blocked === 'wasm-eval') return { request: { kind: 'wasm', note } };
  if (blocked === 'inline' && inline !== undefined) {
    return { request: { kind: 'inline', type: inline, digests: DIGESTS, note }, unknown: 'text' };
  }
  if (isUrl && directive === 'base-uri') return { request: { kind: 'base', url: blocked, note } };
  if (isUrl && directive === 'form-action') return { request: { kind: 'form', url: blocked, note } };
  const destination = DESTINATIONS[directive];
  if (destination === undefined || blocked === 'inline') {
    return { leftOut: "its directive doesn't tell what was blocked" };
  }
  const scheme = /^(data|blob|filesystem)(?::|$)/.exec(blocked)?.[1];
  if (scheme === undefined && !isUrl) return { leftOut: "its blocked URI isn't what a page fetches" };
  const request = { kind: 'fetch', destination, url: scheme === undefined ? blocked : { scheme }, note };
  if (!directive.startsWith('script-src')) return { request };
  if (!isStrict(policy)) return { request, unknown: 'parser' };
  return { request: { ...request, 'parser-inserted': true } };
};

/** @param {Violation} violation */
const noteOf = ({ directive, blocked, page, file, line, column, sample }) => {
  const at = line === undefined ? '' : `:${line}${column === undefined ? '' : `:${column}`}`;
  const where = at === '' || file === '' || file === page ? `${page}${at}` : `${page} in ${file}${at}`;
  return [directive, blocked, where, sample].filter(it => it !== '').join(' ');
};
