// The entries of a HAR as requests: hops are joined to chains of redirects, and each chain is told what
// it was for.
import { asciiLower } from './words.js';
import { urlOf } from './urls.js';

/**
 * @typedef {{name: string, value: string}} Header
 * @typedef {object} Hop
 * @property {string} url
 * @property {string | null} next the URL that its answer redirects to
 * @property {string | null} told the destination of `Sec-Fetch-Dest`
 * @property {string | null} type Chromium's word for what it was for
 * @property {string} media the media type of its answer
 * @property {boolean} isFirst whether it is the first of its page
 * @property {boolean} isPrefetch
 * @property {string | null} initiator Chromium's word for what began it
 * @property {string[]} began the URLs of what began it, the nearest first
 * @property {string | null} referrer
 * @property {string | null} page the name of its page in the recording
 * @property {number} time
 * @property {any} response
 * @typedef {object} Decision
 * @property {string} [destination]
 * @property {boolean} [isPage]
 * @property {string} [leftOut] why it is left out
 * @property {string} [takenFor]
 */

const BY_TYPE = /** @type {Record<string, string>} */ ({
  document: 'document', stylesheet: 'style', script: 'script', image: 'image', font: 'font', media: 'video',
  texttrack: 'track', manifest: 'manifest', xhr: '', fetch: '', eventsource: '', websocket: '',
  webtransport: '', ping: '',
});
const DESTINATIONS = ['', 'audio', 'audioworklet', 'embed', 'font', 'frame', 'iframe', 'image', 'manifest',
  'object', 'paintworklet', 'script', 'serviceworker', 'sharedworker', 'style', 'track', 'video', 'worker'];

/**
 * The value of the first header of that name, or null.
 * @param {Header[] | undefined} headers
 * @param {string} name
 */
export const header = (headers, name) =>
  (Array.isArray(headers) ? headers : []).find(it => String(it?.name).toLowerCase() === name)?.value ?? null;

/** @param {any} entry */
const redirected = ({ request, response }) => {
  const to = [response?.redirectURL, header(response?.headers, 'location')]
    .find(it => typeof it === 'string' && it !== '');
  if (to === undefined || ![301, 302, 303, 307, 308].includes(response?.status)) return null;
  return urlOf(to, request.url)?.href ?? null;
};

/** @param {any} entry a question of CORS, which no policy decides */
const isPreflight = ({ _resourceType, request }) => _resourceType === 'preflight'
  || request.method === 'OPTIONS' && header(request.headers, 'access-control-request-method') !== null;

/** @param {any} entry */
const isReport = ({ _resourceType, request }) => _resourceType === 'csp-violation-report'
  || header(request.headers, 'sec-fetch-dest') === 'report'
  || /^application\/(csp-report|reports[+]json)/.test(header(request.headers, 'content-type') ?? '');

/** @param {any} entry */
const isPrefetch = ({ _resourceType, request: { headers } }) => _resourceType === 'prefetch'
  || (header(headers, 'sec-purpose') ?? header(headers, 'purpose') ?? '').startsWith('prefetch');

/**
 * The URLs of what began a request: of the parser's text, or of the scripts that were running.
 * @param {any} initiator
 * @returns {string[]}
 */
const beganBy = initiator => {
  const urls = typeof initiator?.url === 'string' ? [initiator.url] : [];
  for (let stack = initiator?.stack; stack; stack = stack.parent) {
    const frames = Array.isArray(stack.callFrames) ? stack.callFrames : [];
    for (const it of frames) urls.push(String(it?.url));
  }
  return urls.filter(it => it !== '');
};

/**
 * A hop, with what tells of it. A socket has a URL of ws or wss. No rule looks at the data of a data URL.
 * @param {any} entry
 * @param {boolean} isFirst
 * @returns {Hop}
 */
const hopOf = (entry, isFirst) => {
  const { request, response, _resourceType } = entry, told = header(request.headers, 'sec-fetch-dest');
  const isSocket = _resourceType === 'websocket' || told === 'websocket'
    || header(request.headers, 'sec-fetch-mode') === 'websocket';
  const { url } = request, isData = url.startsWith('data:');
  return {
    url: isData ? 'data:,' : isSocket ? url.replace(/^http/, 'ws') : url,
    next: redirected(entry),
    told: isSocket ? null : told,
    type: isSocket ? 'websocket' : _resourceType ?? null,
    media: asciiLower(String(response?.content?.mimeType ?? '').replace(/[ ;].*/, '')),
    isFirst, isPrefetch: isPrefetch(entry), initiator: entry._initiator?.type ?? null,
    began: beganBy(entry._initiator), referrer: header(request.headers, 'referer'),
    page: entry.pageref ?? null, time: timeOf(entry), response,
  };
};

/** @param {any} entry */
const timeOf = ({ startedDateTime }) => Date.parse(startedDateTime) || 0;

/**
 * The hops of entries by time. Preflights and reports are none.
 * @param {any[]} entries
 */
const hopsOf = entries => {
  const timed = entries.filter(it => !isPreflight(it) && !isReport(it))
    .map(it => ({ it, time: timeOf(it) })).sort((a, b) => a.time - b.time).map(({ it }) => it);
  const firsts = new Map();
  for (const it of timed) if (!firsts.has(it.pageref ?? null)) firsts.set(it.pageref ?? null, it);
  return timed.map(it => hopOf(it, firsts.get(it.pageref ?? null) === it));
};

/**
 * How a URL is found again in another spelling: by the host in lower case, with a path and without a
 * fragment.
 * @param {string} url
 */
export const keyOf = url => (urlOf(url)?.href ?? url).replace(/#.*/, '');

/**
 * Chains of hops: one that redirects goes on with the next one of that URL.
 * @param {Hop[]} hops
 */
const chainsOf = hops => {
  const chains = /** @type {Hop[][]} */ ([]), open = /** @type {Map<string, Hop[][]>} */ (new Map());
  for (const hop of hops) {
    const waiting = open.get(`${hop.type} ${keyOf(hop.url)}`)?.shift();
    const chain = waiting ?? [];
    if (waiting === undefined) chains.push(chain);
    chain.push(hop);
    if (hop.next === null) continue;
    const name = `${hop.type} ${keyOf(hop.next)}`;
    open.set(name, [...open.get(name) ?? [], chain]);
  }
  return chains;
};

/**
 * The destination that a media type mostly has, or null.
 * @param {string} media
 */
const byMedia = media => {
  if (media.startsWith('image/')) return 'image';
  if (/^(text|application)\/(x-)?(java|ecma)script$/.test(media)) return 'script';
  if (media === 'text/css') return 'style';
  if (/^font\/|^application\/(x-)?font-|^application\/vnd[.]ms-fontobject$/.test(media)) return 'font';
  if (/^(audio|video)\//.test(media)) return media.split('/')[0];
  if (media === 'text/vtt') return 'track';
  if (media === 'application/manifest+json') return 'manifest';
  return ['text/html', 'application/xhtml+xml'].includes(media) ? 'document' : null;
};

/**
 * What a chain was for: its destination, or that it is the page itself, or why it is left out.
 * @param {Hop[]} chain
 * @returns {Decision}
 */
const decisionOf = chain => {
  const [first] = chain, has = (/** @type {any} */ it) => it !== null && it !== undefined;
  const told = chain.map(it => it.told).find(has) ?? null;
  const type = chain.map(it => BY_TYPE[it.type ?? 'other']).find(has) ?? null;
  const word = told ?? type ?? byMedia(chain[chain.length - 1].media);
  const isFetched = /^(https?|wss?|data|blob|filesystem):/.test(first.url);
  if (!isFetched) return { leftOut: "pages don't fetch such URLs" };
  if (chain.some(it => it.isPrefetch)) return { leftOut: "prefetches aren't judged" };
  if (told === 'document') return { isPage: true };
  if (told === 'empty') return { destination: '' };
  if (word === null) return { leftOut: 'nothing tells what it was for' };
  if (word === 'document' && first.isFirst) return { isPage: true, takenFor: 'the page itself' };
  if (word === 'document' && type !== null) return { destination: 'iframe', takenFor: 'a frame' };
  if (word === 'document') return { leftOut: 'nothing tells whether it was a frame' };
  if (!DESTINATIONS.includes(word)) return { leftOut: `a request file has no destination ${word}` };
  return told === null && type === null ? { destination: word, takenFor: word } : { destination: word };
};

/**
 * @typedef {object} Chain a request of a recording
 * @property {Hop} first
 * @property {Hop} last
 * @property {string[]} urls its URLs in order, at most 21, the last one too where it has no entry
 * @property {string} name
 * @property {boolean} isOpen whether no entry follows its last redirect
 * @property {Decision} decision
 */

/**
 * The requests of a recording, by time.
 * @param {any[]} entries
 * @returns {Chain[]}
 */
export const requestsOf = entries => chainsOf(hopsOf(entries)).map(chain => {
  const first = chain[0], last = chain[chain.length - 1];
  const urls = [...chain.map(it => it.url), ...last.next === null ? [] : [last.next]].slice(0, 21);
  const name = urls.join(' -> '), isOpen = last.next !== null;
  return { first, last, urls, name, isOpen, decision: decisionOf(chain) };
});
