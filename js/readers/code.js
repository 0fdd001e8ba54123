// Places in the text of a script where it names what a policy decides: strings that are run as script,
// WebAssembly, styles that it sets, workers of blobs. The text is searched, not run: all of it is possible
// only.

/**
 * @typedef {{request: import('./html.js').Request, said: string, line: number}} Named a place, by its line
 */

// No text has these digests: a script may set any style.
const DIGESTS = { sha256: '0'.repeat(64), sha384: '0'.repeat(96), sha512: '0'.repeat(128) };
const PLACES = /** @type {[RegExp, string, import('./html.js').Request][]} */ ([
  [/(?<![\w$.])eval\s*\(/g, 'eval', { kind: 'eval' }],
  [/(?<![\w$.])Function\s*\(/g, 'Function', { kind: 'eval' }],
  [/\bset(?:Timeout|Interval)\s*\(\s*["'`]/g, 'a timer of a string', { kind: 'eval' }],
  [/\bWebAssembly\s*\.\s*(?:compile|instantiate|Module)/g, 'WebAssembly', { kind: 'wasm' }],
  [
    /\bsetAttribute\s*\(\s*["'`]style["'`]/g, 'a style attribute that is set',
    { kind: 'inline', type: 'style-attribute', digests: DIGESTS },
  ],
  [
    /\bcreateElement\s*\(\s*["'`]style["'`]/g, 'a style element that is made',
    { kind: 'inline', type: 'style', digests: DIGESTS },
  ],
  [
    /\bnew\s+(?:Shared)?Worker\s*\(\s*(?:window\.|self\.)?URL\.createObjectURL/g, 'a worker of a blob',
    { kind: 'fetch', destination: 'worker', url: { scheme: 'blob' } },
  ],
]);

/**
 * The places in the text of a script, in their order.
 * @param {string} text
 * @returns {Named[]}
 */
export const namedIn = text => PLACES.flatMap(([pattern, said, request]) =>
  [...text.matchAll(pattern)].map(({ index = 0 }) => ({ at: index, request, said })))
  .sort((a, b) => a.at - b.at)
  .map(({ at, request, said }) => ({ request, said, line: text.slice(0, at).split('\n').length }));
