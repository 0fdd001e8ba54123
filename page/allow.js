/** What to add to a page's headers so that a thing is allowed, as the engine said when it was asked again. */
import { describe, hostOf } from '../js/describe.js';
import { itemsOf, judged as judgedOf } from '../js/propose/items.js';
import { adviceOf, needOf } from '../js/propose/needs.js';
import { PolicyList, widerOf } from '../js/propose/policy.js';
import { groupedBy } from './answer.js';
import { policiesIn } from './reading.js';

/**
 * @typedef {import('../js/index.js').Program} Program
 * @typedef {import('../js/propose/items.js').Item} Item
 * @typedef {import('../js/propose/items.js').Judged} Judged
 * @typedef {import('./rows.js').PageAnswer} PageAnswer
 * @typedef {import('../js/readers/html.js').Piece} Piece
 */

/**
 * The sources that allow it in a directive, none where no source does; and what else can be done, which is
 * better where the sources are those of an attribute.
 * @typedef {{ directive: string, sources: string[], advice?: string, isBetter: boolean }} Allowing
 */

const WISH = /** @type {const} */ ({ form: 'addition', inline: 'hashes', unsafeHashes: true });
// Nobody writes more sources for things that are alike into a header.
const MOST = 100;

/** @param {Piece} piece whether it is the code of an element, which can have a nonce */
const isElement = ({ request: { type } }) => type === 'script' || type === 'style';

/**
 * The sources that allow things that are alike, each once the sources of all of them are added.
 * @param {Program} program
 * @param {readonly string[]} lines
 * @param {Judged[]} alike
 */
const sourcesFor = async (program, lines, alike) => {
  const found = /** @type {Map<unknown, string[]>} */ (new Map());
  const headers = new PolicyList(policiesIn(program, lines));
  const texts = new Set(alike.map(it => describe(it.item.request).of));
  if (texts.size > MOST) return found;
  const needed = alike.map(({ item, items: [{ effective }] }) => needOf(item, effective, WISH));
  const needs = await Promise.all(needed);
  alike.forEach(({ items }, n) => {
    if (needs[n].sources.length > 0) for (const it of items) headers.add(it, needs[n].sources);
  });
  judgedOf(program, headers.lines, alike.map(it => it.item)).forEach(({ items }, n) => {
    if (items.length === 0 && needs[n].sources.length > 0) found.set(alike[n].item.request, needs[n].sources);
  });
  return found;
};

/**
 * For each request that the headers of a page don't allow, the sources that would.
 * @param {Program} program
 * @param {PageAnswer} answer
 */
const addedTo = async (program, { page, judged }) => {
  const found = /** @type {Map<unknown, string[]>} */ (new Map());
  const own = policiesIn(program, page.lines).length;
  const not = judged.filter(({ answer: { items } }) =>
    items.length > 0 && items.every(it => it.policy < own));
  const items = itemsOf([{ ...page, role: 'page', pieces: not.map(it => it.piece) }], [], 'addition');
  const all = items.map((item, n) => ({ item, items: not[n].answer.items }));
  const groups = groupedBy(all, ({ item: { request }, items: [{ effective }] }) =>
    [effective, describe(request).what, request.kind === 'inline' ? '' : hostOf(request)].join('\n'));
  for (const alike of groups) {
    const sources = await sourcesFor(program, page.lines, alike);
    for (const [request, of] of sources) found.set(request, of);
  }
  return found;
};

/**
 * Whether more can be done about a piece for which there are sources: an element can have the nonce.
 * @param {Piece} piece
 * @param {readonly string[]} lines
 */
const hasOther = (piece, lines) =>
  piece.request.kind === 'inline' && (!isElement(piece) || lines.some(it => /'nonce-/i.test(it)));

/**
 * What to do about each piece of a page that isn't allowed.
 * @param {Program} program
 * @param {PageAnswer} answer
 * @returns {Promise<Map<Piece, Allowing>>}
 */
export const allowingOf = async (program, answer) => {
  const added = await addedTo(program, answer), { page, judged } = answer;
  const own = policiesIn(program, page.lines).length;
  const pairs = judged.filter(it => it.answer.items.length > 0).map(({ piece, answer: { items } }) => {
    const sources = added.get(piece.request), [{ effective, governing }] = items, wider = widerOf(effective);
    const item = { ...piece, page: page.url, origin: page.origin, isReport: false, count: 1 };
    const by = { effective, isOfPage: items.every(it => it.policy >= own) };
    const advice = sources === undefined || hasOther(piece, page.lines) ? adviceOf(item, by) : undefined;
    const directive = governing === effective ? governing : wider;
    const allowing = { directive, sources: sources ?? [], isBetter: !isElement(piece) };
    return /** @type {[Piece, Allowing]} */ ([piece, { ...allowing, ...advice && { advice } }]);
  });
  return new Map(pairs);
};
