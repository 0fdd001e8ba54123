/** What the engine says of each page of a site, piece by piece. */
import { blocksNothing } from './calls.js';
import { questionsOf } from './readers/site.js';

/**
 * @typedef {import('./calls.js').Program} Program
 * @typedef {import('./calls.js').Verdict} Verdict
 * @typedef {import('./readers/site.js').SitePage} SitePage
 * @typedef {import('./readers/html.js').Piece} Piece
 */

/**
 * @template {Verdict} Answer
 * @typedef {{ piece: Piece, answer: Answer }} Judged
 */

/**
 * A page and what is said of its pieces, in their order; `isVoid` where its policies block nothing at all.
 * @template {Verdict} Answer
 * @typedef {{ page: SitePage, judged: Judged<Answer>[], isVoid: boolean }} PageAnswer
 */

/**
 * @template {Verdict} Answer
 * @param {Program} program
 * @param {SitePage} page
 * @param {(program: Program, given: { origin: string, headers: string, requests: string
 *   }) => Answer[]} call judge or why
 * @returns {PageAnswer<Answer>}
 */
export const askOfPage = (program, page, call) => {
  const questions = questionsOf(page), found = /** @type {Map<Piece, Answer>} */ (new Map());
  for (const { origin, policy, pieces, text } of questions) {
    const requests = text ?? JSON.stringify(pieces.map(it => it.request));
    call(program, { origin, headers: policy, requests }).forEach((it, n) => found.set(pieces[n], it));
  }
  const judged = page.pieces.map((piece, n) => ({
    piece, answer: { .../** @type {Answer} */ (found.get(piece)), number: n + 1 },
  }));
  const isVoid = judged.every(({ answer }) => !answer.blocked)
    && questions.every(({ origin, policy }) => blocksNothing(program, { origin, headers: policy }));
  return { page, judged, isVoid };
};
