/** What was given to a proposal, as things of which the engine is asked. */
import { judge } from '../calls.js';
import { questionsOf } from '../readers/site.js';
import { urlOf } from '../readers/urls.js';

/**
 * @typedef {import('../readers/html.js').Piece} Piece
 * @typedef {import('../readers/html.js').Page} Page
 * @typedef {import('../readers/html.js').Request} Request
 * @typedef {Page & { file?: string, role?: 'page' | 'frame' | 'worker', isEnforced?: boolean }} GivenPage a
 * page of `readSite`, `readHar` or `readHtml`
 * @typedef {{ violation: import('../readers/violations.js').Violation, request?: Request, count: number,
 *   pages: Set<string> }} Group reports that are alike, as `Tally.ended` gives them
 * @typedef {object} Place where an item stands
 * @property {string} page the URL of the page
 * @property {string} origin
 * @property {string} [file]
 * @property {boolean} isReport
 * @property {number} count how many reports tell of it, or 1
 * @typedef {Piece & Place} Item a request of a page, or reports that are alike
 * @typedef {{ item: Item, items: import('../answers.js').Item[] }} Judged what doesn't allow it
 */

/** The value that stands in a proposal where each response has a nonce of its own. */
export const NONCE = 'RANDOM';

/**
 * The nonce of a request, or nothing.
 * @param {Request} request
 * @returns {string | undefined}
 */
export const nonceOf = ({ nonce, element }) => nonce
  ?? element?.attributes.find((/** @type {[string, string]} */ it) => it[0] === 'nonce')?.[1];

/**
 * A request as it is once its element has the nonce.
 * @param {Request} request
 * @returns {Request}
 */
export const withNonce = request => {
  if (request.element === undefined) return { ...request, nonce: NONCE };
  const { tag, attributes } = request.element;
  const others = attributes.filter((/** @type {[string, string]} */ it) => it[0] !== 'nonce');
  return { ...request, element: { ...request.element, tag, attributes: [...others, ['nonce', NONCE]] } };
};

/** @param {Request} request with the nonce of the proposal, where it has one of its response */
const renamed = request => nonceOf(request) ? withNonce(request) : request;

/**
 * The items of pages and reports. The loads of frames and workers are left out: their documents have
 * headers of their own.
 * @param {readonly GivenPage[]} pages
 * @param {readonly Group[]} reports
 * @param {import('./needs.js').Wish['form']} form an addition keeps the nonces; in a strict policy a script
 * of which a report doesn't tell whether it stands in the page is taken for one that does
 * @returns {Item[]}
 */
export const itemsOf = (pages, reports, form) => [
  ...pages.filter(it => (it.role ?? 'page') === 'page').flatMap(({ url, origin, file, pieces }) =>
    pieces.map(it => ({
      ...it, request: form === 'addition' ? it.request : renamed(it.request), page: url, origin, file,
      isReport: false, count: 1,
    }))),
  ...reports.flatMap(({ request, violation, count }) =>
    request === undefined ? [] : [reported(form === 'strict' ? parsed(request) : request, violation, count)]),
];

/** @param {Request} request */
const parsed = request =>
  request.destination === 'script' ? { ...request, 'parser-inserted': true } : request;

/**
 * @param {Request} request
 * @param {Group['violation']} violation
 * @param {number} count
 * @returns {Item}
 */
const reported = (request, { page, line, column }, count) => ({
  request, meta: [], said: request.note, line, column, page, origin: urlOf(page)?.origin ?? 'null',
  isReport: true, count,
});

/**
 * What header lines do with items, each on a page of its origin and under the meta policies of its page.
 * @param {import('../calls.js').Program} program
 * @param {readonly string[]} lines
 * @param {readonly Item[]} items
 * @returns {Judged[]} in the order of the items
 */
export const judged = (program, lines, items) => {
  const found = /** @type {Map<Piece, import('../answers.js').Item[]>} */ (new Map());
  for (const origin of new Set(items.map(it => it.origin))) {
    const pieces = items.filter(it => it.origin === origin);
    for (const { policy, pieces: asked } of questionsOf({ origin, lines: [...lines], pieces })) {
      const verdicts = judge(program, { origin, headers: policy, requests: asked.map(requestOf) });
      verdicts.forEach((it, n) => found.set(asked[n], it.items));
    }
  }
  return items.map(item => ({ item, items: found.get(item) ?? [] }));
};

/**
 * @param {Piece} piece
 * @returns {import('../requests.js').Request}
 */
const requestOf = ({ request }) => /** @type {any} */ (request);

/** @param {readonly Item[]} items how many requests or reports they stand for */
export const countOf = items => items.reduce((sum, it) => sum + it.count, 0);

/** @typedef {{ requests: number, reports: number }} Count */

/**
 * @param {readonly Item[]} items
 * @returns {Count}
 */
export const countsOf = items => ({
  requests: items.filter(it => !it.isReport).length, reports: countOf(items.filter(it => it.isReport)),
});
