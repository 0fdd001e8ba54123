/** What a browser says itself of a page, beside what the engine says of it. */
import { keyOf } from './readers/hops.js';
import { urlOf } from './readers/urls.js';

/**
 * @typedef {import('./calls.js').Verdict} Verdict
 * @typedef {import('./readers/violations.js').Violation} Violation
 * @typedef {import('./readers/html.js').Piece} Piece
 */

/**
 * @template {Verdict} Answer
 * @typedef {import('./sites.js').PageAnswer<Answer>} PageAnswer
 */

/**
 * A violation that a browser tells, and the piece that it is of; none where no such piece was read.
 * @typedef {{ violation: Violation, piece?: Piece, isSame: boolean }} Beside `isSame` says whether the
 * engine says so too
 */

const INLINE = /** @type {Record<string, string[]>} */ ({
  'script-src-elem': ['script', 'navigation'], 'script-src-attr': ['script-attribute'],
  'style-src-elem': ['style'], 'style-src-attr': ['style-attribute'],
  'script-src': ['script', 'navigation', 'script-attribute'], 'style-src': ['style', 'style-attribute'],
});

/** @param {any} url a request's */
const textOf = url => {
  if (typeof url === 'string') return url;
  return url.host === undefined ? `${url.scheme}:` : `${url.scheme}://${url.host}`;
};

/**
 * How near the code of a piece is to what a browser says of it; none where it is other code.
 * @param {Violation} violation
 * @param {Piece} piece
 */
const codeNearness = ({ sample, line, column }, { request: { source }, line: at, column: from }) => {
  const isLine = line !== undefined && line === at;
  const begin = sample.replace(/…$/, '').trim();
  const isText = begin !== '' && typeof source === 'string' && source.trim().startsWith(begin);
  if (begin !== '' && typeof source === 'string' && !isText) return undefined;
  return Number(isText) * 4 + Number(isLine) * 2 + Number(isLine && column === from);
};

/**
 * How near a piece is to what a browser says was blocked; none where it is something else.
 * @param {Violation} violation
 * @param {Piece} piece
 */
const nearness = (violation, piece) => {
  const { directive, blocked } = violation, { kind, type, url, urls } = piece.request;
  if (blocked === 'eval') return kind === 'eval' ? 0 : undefined;
  if (blocked === 'wasm-eval') return kind === 'wasm' ? 0 : undefined;
  if (blocked === 'inline') {
    const isOf = kind === 'inline' && (INLINE[directive] ?? []).includes(type);
    return isOf ? codeNearness(violation, piece) : undefined;
  }
  const texts = (urls ?? (url === undefined ? [] : [url])).map(textOf);
  if (texts.some((/** @type {string} */ it) => keyOf(it) === keyOf(blocked))) return 2;
  const isNamed = texts.some((/** @type {string} */ it) =>
    it.startsWith(`${blocked}:`) || urlOf(it)?.origin === blocked);
  return isNamed ? 1 : undefined;
};

/**
 * Whether the engine says the same of a piece.
 * @param {Violation} violation
 * @param {Verdict} answer
 */
const saysSo = ({ directive, disposition }, { items }) => items.some(it =>
  (it.effective === directive || it.effective.startsWith(`${directive}-`))
  && (disposition === '' || disposition === it.disposition));

/**
 * Puts what browsers say beside the pieces of pages. A piece that is named twice stands beside both.
 * @param {PageAnswer<Verdict>[]} answers
 * @param {import('./readers/events.js').Row[]} rows
 * @returns {Beside[]}
 */
export const besideBrowser = (answers, rows) => {
  const used = new Set();
  return rows.map(({ violation }) => {
    const isOf = (/** @type {string} */ url) => violation.page === '' || keyOf(url) === keyOf(violation.page);
    const pages = answers.filter(it => isOf(it.page.url));
    const found = pages.flatMap(it => it.judged).flatMap(({ piece, answer }) => {
      const near = nearness(violation, piece), isSame = saysSo(violation, answer);
      if (near === undefined) return [];
      return [{ piece, isSame, rank: near * 4 + Number(isSame) * 2 + Number(!used.has(piece)) }];
    });
    if (found.length === 0) return { violation, isSame: false };
    const { piece, isSame } = found.reduce((best, it) => it.rank > best.rank ? it : best);
    used.add(piece);
    return { violation, piece, isSame };
  });
};
