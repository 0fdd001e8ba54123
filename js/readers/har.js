// A recording of a browser (HAR) as pages: each page and each frame in it with its own headers, its own
// HTML and the requests that it made.
import { ReadingError } from './error.js';
import { namedIn } from './code.js';
import { readHtml } from './html.js';
import { keyOf, requestsOf } from './hops.js';
import { urlOf } from './urls.js';

/**
 * @typedef {import('./hops.js').Chain} Chain
 * @typedef {import('./html.js').Page} Page
 * @typedef {import('./html.js').Piece} Piece
 * @typedef {object} Recorded
 * @property {'page' | 'frame' | 'worker'} role
 * @property {string | null} frameOf the URL of the page that frames it, or that started the worker
 * @property {boolean} isEnforced whether a policy was enforced while it was recorded
 * @typedef {Page & Recorded} RecordedPage
 * @typedef {object} Context a page, frame or worker while its requests are gathered
 * @property {Chain} chain
 * @property {Recorded['role']} role
 * @property {Context | null} parent
 * @property {Chain[]} requests
 */

const FRAMES = ['frame', 'iframe', 'object', 'embed'], WORKERS = ['worker', 'sharedworker', 'serviceworker'];
const POLICY = /^content-security-policy(?:-report-only)?$/i;

export const ENFORCED = 'this was recorded while a policy was enforced: browsers leave out of a recording '
  + 'what it blocked, and what that would have loaded in its turn';

/** How to record a page without its policy, in steps, by browser. */
export const WITHOUT_POLICY = {
  chromium: [
    'Open the developer tools, choose the panel Network, and reload the page.',
    'Right-click the first request, which is the page itself, and choose "Override headers".',
    'Choose a folder for the overrides, and allow the developer tools to write there.',
    'Under "Response Headers" click the value of content-security-policy, empty it, and press Enter.',
    'Reload the page, use it for a while, and export the recording as a HAR with content.',
    'In the panel Sources, under Overrides, take the override away again.',
  ],
  firefox: [
    'Open about:config in a profile that is used for nothing else.',
    'Set security.csp.enable to false. Where that does nothing, let the server send a report-only policy.',
    'Open the developer tools, choose the panel Network, and reload the page.',
    'Use the page for a while, and choose "Save All As HAR".',
    'Set security.csp.enable to true again.',
  ],
};

/**
 * The header lines of an answer that carry a policy. Chromium joins the values of equal names by line feeds.
 * @param {any} response
 * @returns {string[]}
 */
const linesOf = response => (Array.isArray(response?.headers) ? response.headers : [])
  .filter((/** @type {any} */ it) => POLICY.test(it?.name))
  .flatMap((/** @type {any} */ { name, value }) => String(value).split('\n').map(it => `${name}: ${it}`));

/** @param {string} line whether a header line enforces a directive */
const enforces = line => /^[^:]*(?<!-report-only):.*[^\s,;]/i.test(line);

/**
 * The text of an answer, or nothing where the recording doesn't hold it.
 * @param {any} content
 */
const textOf = content => {
  if (typeof content?.text !== 'string' || content.text === '') return undefined;
  if (content.encoding !== 'base64') return content.text;
  const bytes = Uint8Array.from(atob(content.text), it => it.charCodeAt(0));
  const charset = /charset="?([^\s;"]+)/i.exec(content.mimeType ?? '')?.[1] ?? 'utf-8';
  try {
    return new TextDecoder(charset).decode(bytes);
  } catch {
    return new TextDecoder().decode(bytes);
  }
};

/** @param {Chain} chain */
const addressOf = chain => chain.urls[chain.urls.length - 1];

/** The pages, frames and workers of a recording, each with the requests that it made. */
class Contexts {
  constructor() {
    this.all = /** @type {Context[]} */ ([]);
    this.loaders = /** @type {Map<string, Context[]>} */ (new Map());
    this.unsure = 0;
    this.homeless = /** @type {Chain[]} */ ([]);
  }

  /** @param {Chain} chain */
  add(chain) {
    const { destination = '', isPage } = chain.decision, owner = isPage ? undefined : this.ownerOf(chain);
    const opens = isPage ? 'page' : FRAMES.includes(destination) && isDocument(chain) ? 'frame'
      : WORKERS.includes(destination) ? 'worker' : undefined;
    if (owner !== undefined) {
      const key = keyOf(addressOf(chain)), loaders = this.loaders.get(key) ?? [];
      owner.requests.push(chain);
      if (!loaders.includes(owner)) this.loaders.set(key, [...loaders, owner]);
    } else if (!isPage) this.homeless.push(chain);
    if (opens !== undefined) this.all.push({ chain, role: opens, parent: owner ?? null, requests: [] });
  }

  /**
   * The page, frame or worker that made a request: the one that its Referer names, else the one that
   * loaded what began it, else the one whose origin its Referer names, else the page.
   * @param {Chain} chain
   */
  ownerOf({ first }) {
    const paged = this.all.filter(it => it.chain.first.page === first.page);
    const all = paged.length > 0 ? paged : this.all, page = all.filter(it => it.role === 'page').slice(-1)[0];
    const here = all.slice(Math.max(0, all.indexOf(page))), { referrer } = first;
    const origin = referrer === null ? undefined : urlOf(referrer)?.origin;
    const isOrigin = (/** @type {Context} */ it) => urlOf(addressOf(it.chain))?.origin === origin;
    const began = first.initiator === 'other' ? [] : first.began;
    for (const url of referrer === null || isBare(referrer) ? began : [referrer, ...began]) {
      const known = here.filter(it => keyOf(addressOf(it.chain)) === keyOf(url));
      const loaders = (this.loaders.get(keyOf(url)) ?? []).filter(it => here.includes(it));
      const found = known.length > 0 ? known : loaders;
      const fitting = found.some(isOrigin) ? found.filter(isOrigin) : found;
      if (fitting.length > 0) return this.oneOf(fitting);
    }
    const fitting = here.filter(isOrigin);
    return fitting.length > 0 ? this.oneOf(fitting) : page ?? here[0];
  }

  /**
   * Gives each request that stands before its page to that page. What is left has no page in the
   * recording.
   */
  settle() {
    const pageOf = (/** @type {Chain} */ { first }) =>
      this.all.find(it => it.role === 'page' && it.chain.first.page === first.page);
    for (const it of [...this.homeless].reverse()) pageOf(it)?.requests.unshift(it);
    return this.homeless.filter(it => pageOf(it) === undefined);
  }

  /** @param {Context[]} contexts of which the first is taken */
  oneOf(contexts) {
    if (contexts.length > 1) this.unsure += 1;
    return contexts[0];
  }
}

/** @param {string} referrer whether it names an origin alone, as it does to other origins */
const isBare = referrer => /^[a-z]+:\/\/[^/?#]*\/?$/.test(referrer);

/** @param {Chain} chain whether its answer is a page, in an object or an embed too */
const isDocument = ({ last, decision }) => ['frame', 'iframe'].includes(decision.destination ?? '')
  || ['text/html', 'application/xhtml+xml', 'image/svg+xml'].includes(last.media);

/**
 * The request of a chain in the engine's form.
 * @param {Chain} chain
 */
const requestOf = ({ first, urls, name, decision: { destination } }) => ({
  kind: 'fetch', destination, ...urls.length > 1 ? { urls } : { url: urls[0] },
  ...first.initiator === 'parser' ? { 'parser-inserted': true } : {},
  note: `${destination === '' ? first.type ?? 'connect' : destination} ${name}`,
});

/**
 * Joins what was recorded with what stands in the HTML: a request of an element has its nonce, its
 * integrity and its place. What is in one of them alone stays.
 * @param {Chain[]} chains
 * @param {Piece[]} pieces
 * @param {string[]} meta the policies of all meta elements
 */
const joined = (chains, pieces, meta) => {
  const waiting = /** @type {Map<string, Piece[]>} */ (new Map());
  for (const it of pieces) {
    if (it.request.kind !== 'fetch' || typeof it.request.url !== 'string') continue;
    const name = `${it.request.destination} ${keyOf(it.request.url)}`, others = waiting.get(name);
    if (others === undefined) waiting.set(name, [it]);
    else others.push(it);
  }
  const found = /** @type {Map<Piece, Chain>} */ (new Map()), alone = /** @type {Piece[]} */ ([]);
  for (const chain of chains) {
    const { destination } = chain.decision, { initiator, url } = chain.first;
    const piece = initiator === 'script' ? undefined : waiting.get(`${destination} ${keyOf(url)}`)?.shift();
    if (piece !== undefined) found.set(piece, chain);
    else alone.push({ request: requestOf(chain), meta, said: requestOf(chain).note });
  }
  return [...pieces.map(it => withChain(it, found.get(it))), ...alone];
};

/**
 * A piece of the HTML with what was recorded of it.
 * @param {Piece} piece
 * @param {Chain} [chain]
 * @returns {Piece}
 */
const withChain = (piece, chain) => {
  if (chain === undefined) return piece;
  const { url, note, ...request } = piece.request, { urls, name } = chain;
  const { possible, ...rest } = piece;
  const all = urls.length > 1 ? { urls } : { url: urls[0] };
  return { ...rest, request: { ...request, ...all, note: urls.length > 1 ? `${note}, ${name}` : note } };
};

/**
 * What has to be said of the requests of a page.
 * @param {Chain[]} chains
 * @param {boolean} hasText
 */
const saidOf = (chains, hasText) => {
  const all = chains.flatMap(({ decision, name, isOpen }) => [
    ...decision.leftOut ? [`left out, since ${decision.leftOut}: ${name}`] : [],
    ...decision.takenFor ? [`taken for ${decision.takenFor}, with no Sec-Fetch-Dest: ${name}`] : [],
    ...decision.destination !== undefined && isOpen ? [`no entry follows the last redirect: ${name}`] : [],
  ]);
  const count = (/** @type {(it: Chain) => boolean} */ is) => chains.filter(is).length;
  const scripts = count(it => it.decision.destination === 'script' && it.first.initiator === null);
  const many = `scripts without an initiator, taken for not parser-inserted: ${scripts}`;
  if (scripts > 0 && !hasText) all.push(many);
  const workers = count(it => it.last.response?._fetchedViaServiceWorker);
  if (workers > 0) all.push(`answered by a service worker, from a URL that isn't recorded: ${workers}`);
  return all.map(said => ({ said }));
};

const UNSEEN = [
  'eval, WebAssembly and styles that scripts set, where the text of no script in the recording names them: '
    + 'not looked at',
  'inline code and handlers that scripts insert: not looked at',
  'blob: URLs, and the data: URLs that scripts and style sheets load: not looked at',
  'who frames the page: not looked at',
];
export const NO_TEXT = 'inline code, nonces, integrity, forms and meta policies, since the recording has no '
  + 'text of this page: not looked at (export the HAR with content)';
const CACHED = 'the page came from the cache (status 304), and its headers may be missing: record it without '
  + 'cache';

/**
 * A document in an object or an embed, which Chromium asks `frame-src` about too.
 * @param {Chain} chain
 * @param {string[]} meta
 * @returns {Piece[]}
 */
const framesOf = ({ urls, name, last, decision: { destination = '' } }, meta) => {
  const isOf = ['object', 'embed'].includes(destination)
    && ['text/html', 'application/pdf'].includes(last.media);
  const said = `${destination} ${name}, which Chromium takes for a frame too`, note = said;
  const where = urls.length > 1 ? { urls } : { url: urls[0] };
  const request = { kind: 'fetch', destination: 'iframe', ...where, note };
  return isOf ? [{ request, meta, said, possible: true }] : [];
};

/**
 * What the text of a script that was recorded names.
 * @param {Chain} chain
 * @param {string[]} meta
 * @returns {Piece[]}
 */
const codeOf = ({ last, decision, name }, meta) => {
  const text = decision.destination === 'script' ? textOf(last.response?.content) ?? '' : '';
  return namedIn(text).map(({ request, said, line }) => {
    const all = `${said} in ${name}, line ${line}`;
    return { request: { ...request, note: all }, meta, said: all, possible: true };
  });
};

/**
 * A page of the recording, or a frame or a worker of one.
 * @param {Context} context
 * @param {import('./html.js').Parse} parse
 * @returns {RecordedPage}
 */
const pageOf = ({ chain, role, parent, requests }, parse) => {
  const { response, media } = chain.last, url = addressOf(chain), lines = linesOf(response);
  const isHtml = role !== 'worker' && (media === '' || /html/.test(media));
  const text = isHtml ? textOf(response?.content) : '';
  const page = readHtml(text ?? '', { url, parse, lines, isRecorded: true });
  const judged = requests.filter(it => it.decision.destination !== undefined);
  const isEnforced = [...lines, ...page.meta].some(enforces);
  const said = saidOf([chain, ...requests], text !== undefined);
  const left = [...page.left, ...said, ...response?.status === 304 ? [{ said: CACHED }] : []];
  return {
    ...page, role, frameOf: parent === null ? null : addressOf(parent.chain), isEnforced, left,
    pieces: [
      ...joined(judged, page.pieces, page.meta),
      ...judged.flatMap(it => [...framesOf(it, page.meta), ...codeOf(it, page.meta)]),
    ],
    unseen: [
      ...isEnforced ? [`what the enforced policy blocked: ${ENFORCED}`] : [],
      ...text === undefined ? [NO_TEXT] : [],
      ...UNSEEN, ...page.unseen,
    ],
  };
};

/**
 * @param {string} text
 * @returns {any[]}
 */
const entriesOf = text => {
  const write = 'Give a HAR, as "Export HAR" of Chromium and "Save All As HAR" of Firefox write it';
  let har;
  try {
    har = JSON.parse(text.replace(/^\uFEFF/, ''));
  } catch (error) {
    const why = error instanceof Error ? error.message : error;
    throw new ReadingError({ said: `this is no JSON (${why})`, write });
  }
  const entries = har?.log?.entries;
  if (!Array.isArray(entries)) {
    throw new ReadingError({ said: 'this is no HAR: log.entries is no array', write });
  }
  const at = entries.findIndex(it => typeof it?.request?.url !== 'string');
  if (at < 0) return entries;
  throw new ReadingError({ said: `this is no HAR: entry ${at + 1} has no URL`, write });
};

const UNSURE = 'requests of which several pages or frames may be the origin, taken for those of the first';

/**
 * Reads a recording. Its pages come in the order of time, each followed by its frames and workers.
 * @param {string} text
 * @param {{parse: import('./html.js').Parse, name?: string}} options
 * @returns {{pages: RecordedPage[], left: import('./html.js').Said[]}}
 */
export const readHar = (text, { parse, name }) => {
  try {
    const contexts = new Contexts();
    for (const chain of requestsOf(entriesOf(text))) contexts.add(chain);
    if (!contexts.all.some(it => it.role === 'page')) {
      const write = 'Reload the page while the network panel records, and export it again';
      throw new ReadingError({ said: "the page's own answer isn't in this recording", write });
    }
    const alone = contexts.settle().map(it => `left out, since its page is not in the recording: ${it.name}`);
    const unsure = contexts.unsure > 0 ? [`${UNSURE}: ${contexts.unsure}`] : [];
    return {
      pages: contexts.all.map(it => pageOf(it, parse)),
      left: [...alone, ...unsure].map(said => ({ said })),
    };
  } catch (error) {
    if (!(error instanceof ReadingError) || name === undefined) throw error;
    throw error.in({ file: name });
  }
};
