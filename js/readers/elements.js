// Which attributes of which elements name something that a browser loads, and for what (HTML; Fetch,
// "destination").

/**
 * @typedef {object} Fetch
 * @property {string} destination
 * @property {string} url as it stands in the attribute
 * @property {string} said
 * @property {string} [attribute]
 * @property {string} [nonce]
 * @property {string} [integrity]
 * @property {boolean} [isParsed] whether it is a script that the parser inserts
 * @property {boolean} [possible] whether a browser may do without it
 * @typedef {import('./html.js').Element} Element
 */

const SVG = 'http://www.w3.org/2000/svg';
const BACKGROUNDS = ['body', 'table', 'thead', 'tbody', 'tfoot', 'tr', 'td', 'th'];
// What a link that preloads may say in `as`, and what stands for it (HTML, "translate a preload
// destination").
const PRELOADS = new Map([
  ['fetch', ''], ['font', 'font'], ['image', 'image'], ['script', 'script'], ['style', 'style'],
  ['track', 'track'],
]);
const MODULES = ['script', 'audioworklet', 'paintworklet', 'serviceworker', 'sharedworker', 'worker'];
const HINTS = ['prefetch', 'preconnect', 'dns-prefetch', 'prerender'];

/**
 * The URLs of a `srcset` (HTML, "parse a srcset attribute").
 * @param {string} text
 */
export const srcsetUrls = text => {
  const urls = [], url = /[\s,]*(\S+)/y, rest = /(?:\([^)]*\)|[^,(])*/y;
  for (let at = 0; ;) {
    url.lastIndex = at;
    const found = url.exec(text)?.[1].replace(/,+$/, '');
    if (found === undefined || found === '') return urls;
    urls.push(found);
    rest.lastIndex = url.lastIndex;
    if (text[url.lastIndex - 1] !== ',') rest.exec(text);
    at = rest.lastIndex;
  }
};

/**
 * @param {Element} element
 * @param {string} attribute
 * @param {string} destination
 * @param {boolean} [possible]
 * @returns {Fetch[]}
 */
const one = (element, attribute, destination, possible) => {
  const url = element.get(attribute), said = `${attribute} of <${element.tag}>`;
  return url === undefined ? [] : [{ destination, url, attribute, said, possible }];
};

/**
 * @param {Element} element
 * @param {string} attribute
 * @returns {Fetch[]}
 */
const candidates = (element, attribute) => srcsetUrls(element.get(attribute) ?? '').map(url =>
  ({ destination: 'image', url, attribute, said: `${attribute} of <${element.tag}>`, possible: true }));

/**
 * @param {Element} element
 * @param {import('./html.js').Said[]} left
 * @returns {Fetch[]}
 */
const ofLink = (element, left) => {
  const rels = new Set((element.get('rel') ?? '').toLowerCase().split(/[\t\n\f\r ]+/));
  const { line } = element, href = element.get('href') ?? '', as = element.get('as')?.toLowerCase();
  const nonce = element.get('nonce'), integrity = element.get('integrity'), type = element.get('type') ?? '';
  const by = (/** @type {string} */ rel, /** @type {string} */ destination, possible = false) =>
    ({ destination, url: href, attribute: 'href', said: `<link rel=${rel}>`, nonce, integrity, possible });
  const found = /** @type {Fetch[]} */ ([]);
  const isStyle = element.get('disabled') === undefined && /^\s*(?:text\/css)?\s*(?:;.*)?$/i.test(type);
  if (rels.has('stylesheet') && isStyle) found.push(by('stylesheet', 'style'));
  if (rels.has('icon') || rels.has('apple-touch-icon')) found.push(by('icon', 'image', true));
  if (rels.has('manifest')) found.push(by('manifest', 'manifest'));
  if (rels.has('preload')) {
    const destination = PRELOADS.get(as ?? ''), name = `preload as=${as ?? ''}`;
    const isChosen = as === 'image' && element.get('imagesrcset') !== undefined;
    if (destination === undefined) left.push({ line, said: `<link rel=${name}> isn't judged: left out` });
    else found.push(by(name, destination, isChosen));
    if (as === 'image') found.push(...candidates(element, 'imagesrcset'));
  }
  if (rels.has('modulepreload')) {
    const word = as === undefined || as === '' ? 'script' : as;
    if (MODULES.includes(word)) found.push(by('modulepreload', word));
    else left.push({ line, said: `<link rel=modulepreload as=${as}> isn't judged: left out` });
  }
  const hints = HINTS.filter(it => rels.has(it));
  if (hints.length > 0) left.push({ line, said: `<link rel=${hints.join(' ')}> isn't judged: left out` });
  return found.filter(it => it.url !== '');
};

/**
 * @param {Element} element
 * @param {import('./html.js').Said[]} left
 * @returns {Fetch[]}
 */
const ofSvg = (element, left) => {
  const name = element.get('href') === undefined ? 'xlink:href' : 'href', url = element.get(name) ?? '';
  if (url.startsWith('#')) return [];
  if (element.tag === 'image' || element.tag === 'feImage') return one(element, name, 'image');
  if (element.tag === 'use' && url !== '') {
    left.push({ line: element.line, said: `<use ${name}> of another file isn't judged: left out` });
  }
  return [];
};

/**
 * What an element loads, but for scripts.
 * @param {Element} element
 * @param {import('./html.js').Said[]} left takes what isn't judged
 * @returns {Fetch[]}
 */
export const fetchesOf = (element, left) => {
  const { tag, parent } = element, isPicture = parent?.tag === 'picture';
  if (element.namespace === SVG) return ofSvg(element, left);
  const waits = element.get('preload') === 'none' && element.get('autoplay') === undefined;
  switch (tag) {
    case 'img': {
      const isChosen = isPicture || element.get('srcset') !== undefined;
      return [...one(element, 'src', 'image', isChosen), ...candidates(element, 'srcset')];
    }
    case 'source': return isPicture ? candidates(element, 'srcset')
      : one(element, 'src', parent?.tag === 'audio' ? 'audio' : 'video', true);
    case 'video': return [...one(element, 'src', 'video', waits), ...one(element, 'poster', 'image')];
    case 'audio': return one(element, 'src', 'audio', waits);
    case 'track': return one(element, 'src', 'track', true);
    case 'input': return /^image$/i.test(element.get('type') ?? '') ? one(element, 'src', 'image') : [];
    case 'iframe': case 'frame': return one(element, 'src', tag);
    case 'object': return one(element, 'data', 'object');
    case 'embed': return one(element, 'src', 'embed');
    case 'link': return ofLink(element, left);
    default: return BACKGROUNDS.includes(tag) ? one(element, 'background', 'image') : [];
  }
};
