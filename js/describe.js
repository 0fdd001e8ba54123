/** A request in a person's words. */

const KINDS = /** @type {Record<string, string>} */ ({
  eval: 'a string run as script', wasm: 'WebAssembly', ancestors: 'framed by', base: 'base URL',
  form: 'form to', capability: 'sandbox:', 'worker-start': 'start of a worker',
});
const INLINE = /** @type {Record<string, string>} */ ({
  script: 'inline script', 'script-attribute': 'event handler', style: 'inline style',
  'style-attribute': 'style attribute', navigation: 'javascript: URL',
});

/** @param {any} url */
const urlText = url => {
  if (url === null || typeof url !== 'object') return String(url ?? '');
  const { scheme, host, port, path } = url, behind = port === null || port === undefined ? '' : `:${port}`;
  return host === undefined ? `${scheme}:` : `${scheme}://${host}${behind}${path ?? ''}`;
};

/** @param {any} request */
const subject = ({ kind, url, urls, source, name, ancestors }) => {
  if (Array.isArray(urls)) return urls.map(urlText).join(' → ');
  if (Array.isArray(ancestors)) return ancestors.map(urlText).join(', ');
  return url === undefined ? kind === 'eval' ? '' : source ?? name ?? '' : urlText(url);
};

/**
 * What is asked for, and of what, as `image` and `https://b.example/x.png`.
 * @param {any} request
 */
export const describe = request => {
  if (request === null || typeof request !== 'object') return { what: 'request', of: '' };
  const { kind, destination, type, nonce, integrity } = request, of = subject(request);
  const marks = [nonce ? `with the nonce ${nonce}` : '', integrity ? `with integrity ${integrity}` : ''];
  const told = [of, ...marks].filter(it => it !== '').join(' ');
  if (kind === 'fetch') return { what: destination === '' ? 'connection' : String(destination), of: told };
  if (kind === 'inline') return { what: INLINE[type] ?? 'inline code', of: told };
  return { what: KINDS[kind] ?? String(kind), of: told };
};

/**
 * The note of a request, or else what it is and of what.
 * @param {any} request
 */
export const describeText = request => {
  if (typeof request?.note === 'string') return request.note;
  const { what, of } = describe(request);
  return `${what} ${of}`.trimEnd();
};

/**
 * The host of a request's first URL, or its scheme, or what it is.
 * @param {any} request
 */
export const hostOf = request => {
  const [, scheme, host] = /^([a-z][a-z0-9+.-]*:)(?:\/\/([^/?#\s]*))?/i.exec(describe(request).of) ?? [];
  return host ?? scheme ?? '';
};
