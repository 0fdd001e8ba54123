/** What a request file may say: docs/REQUESTS.md tells each word. */

export const KINDS = /** @type {const} */ ([
  'fetch', 'inline', 'eval', 'wasm', 'base', 'form', 'ancestors', 'capability', 'worker-start',
]);
export const DESTINATIONS = /** @type {const} */ ([
  '', 'audio', 'audioworklet', 'embed', 'font', 'frame', 'iframe', 'image', 'manifest', 'object',
  'paintworklet', 'report', 'script', 'serviceworker', 'sharedworker', 'style', 'track', 'video', 'worker',
]);
export const INLINE_TYPES = /** @type {const} */ ([
  'script', 'script-attribute', 'style', 'style-attribute', 'navigation',
]);
export const CAPABILITIES = /** @type {const} */ ([
  'downloads', 'forms', 'modals', 'orientation-lock', 'pointer-lock', 'popups', 'popups-to-escape-sandbox',
  'presentation', 'same-origin', 'scripts', 'top-navigation', 'top-navigation-by-user-activation',
]);

/**
 * A URL in full, or its parts.
 * @typedef {string | { scheme: string, host?: string, port?: number | null, path?: string }} Url
 * @typedef {{ tag: string, attributes: readonly (readonly [string, string])[],
 *   'duplicate-attribute'?: boolean }} Element
 * @typedef {{ sha256: string, sha384: string, sha512: string }} Digests
 * @typedef {{ url: Url, redirects?: number } | { urls: readonly Url[] }} Chain
 * @typedef {{ note?: string }} Noted
 */

/**
 * One thing that a page loads, runs or does.
 * @typedef {Noted & (
 *   { kind: 'fetch', destination: typeof DESTINATIONS[number], nonce?: string, integrity?: string,
 *     'parser-inserted'?: boolean, response?: Url } & Chain
 *   | { kind: 'inline', type: typeof INLINE_TYPES[number], source?: string, digests?: Digests,
 *       nonce?: string, element?: Element }
 *   | { kind: 'eval', source?: string }
 *   | { kind: 'wasm' | 'worker-start' }
 *   | { kind: 'base', url: Url }
 *   | { kind: 'form' } & Chain
 *   | { kind: 'ancestors', ancestors: readonly Url[], page?: Url }
 *   | { kind: 'capability', name: typeof CAPABILITIES[number] })} Request
 */
