/** Whether new headers are weaker than old ones. */
import { describeText } from '../js/describe.js';
import { weaker as ask } from '../js/weaker.js';
import { code, copied, counted, joined, table } from './answer.js';
import { changeMatrix } from './matrix.js';
import { headersText, readingBlocks } from './reading.js';
import { say } from './sentences.js';

/**
 * @typedef {import('../js/weaker.js').Weakening} Weakening
 * @typedef {import('../js/answers.js').Shown} Shown
 * @typedef {import('./answer.js').Answer} Answer
 * @typedef {import('./answer.js').Block} Block
 * @typedef {import('./answer.js').Cell} Cell
 * @typedef {import('./reading.js').Reading} Reading
 */

/** @param {Shown | undefined} shown */
export const shownText = shown => {
  if (shown === undefined) return '';
  const { request, url } = shown, text = describeText(request);
  return url === null || text.includes(url) ? text : `${text} (${url})`;
};

/**
 * @param {Weakening} answer
 * @returns {Pick<Answer, 'mood' | 'sentence'>}
 */
const summed = ({ verdict, uncovered, directives }) => {
  const loose = joined(uncovered.filter(it => it.loosens).map(it => it.directive));
  const weak = joined(directives.filter(it => it.allowed !== undefined).map(it => it.directive));
  switch (verdict) {
    case 'weaker': return { mood: 'bad', sentence: say('weaker', weak, loose) };
    case 'loosened': return { mood: 'bad', sentence: say('loosened', loose) };
    case 'nothing': return { mood: 'warn', sentence: say('oldNothing') };
    case 'not weaker': return { mood: 'good', sentence: say('notWeaker') };
    default: throw new Error('a checker rejects the proof: please report this fault');
  }
};

/** @param {Weakening} answer */
const uncoveredBlock = ({ uncovered }) => {
  const rows = uncovered.map(({ directive, change, loosens, old, new: newer }) => {
    const told = loosens ? { text: `${change}: looser`, mood: /** @type {const} */ ('bad') } : change;
    return [code(directive), told, code(old), code(newer)];
  });
  return table(say('uncovered'), ['Directive', 'Change', 'Old', 'New'], rows);
};

const CHANGES = /** @type {Record<string, Cell>} */ ({
  weaker: { text: 'weaker', mood: 'bad' }, both: { text: 'weaker and stricter', mood: 'bad' },
  stricter: 'stricter',
});

/**
 * @param {Weakening} answer
 * @returns {Block[]}
 */
const directivesBlock = ({ directives }) => {
  const rows = directives.filter(it => it.change !== 'same').map(({ directive, change, allowed, blocked }) =>
    [code(directive), CHANGES[change], shownText(allowed), shownText(blocked)]);
  const same = joined(directives.filter(it => it.change === 'same').map(it => it.directive));
  return [
    ...table(say('changed'), ['Directive', 'It is', 'Allowed now, as', 'Blocked now, as'], rows),
    ...same === '' ? [] : [/** @type {Block} */ ({ kind: 'paragraph', text: say('same', same) })],
  ];
};

/**
 * What an attacker could do before and after, where that changed.
 * @param {Weakening} answer
 * @returns {Block[]}
 */
const auditBlock = ({ before, after }) => {
  const ids = [...new Set([...before.rows, ...after.rows].map(it => it.id))];
  const rows = ids.flatMap(id => {
    const [was, is] = [before, after].map(it => it.rows.find(row => row.id === id)), row = is ?? was;
    if (row === undefined || was?.can === is?.can) return [];
    const isWorse = is !== undefined && is.can !== 'no' && (was === undefined || was.can === 'no');
    const now = { text: is?.can ?? 'not named', ...isWorse && { mood: /** @type {const} */ ('bad') } };
    return [[`${row.action} ${row.from ?? ''}`.trim(), was?.can ?? 'not named', now]];
  });
  const left = counted(ids.length - rows.length, 'thing');
  if (rows.length === 0) return [{ kind: 'paragraph', text: say('attackerSame', left) }];
  return table(say('attackerChanged', left), ['An attacker could', 'Before', 'Now'], rows);
};

/** @param {Weakening} answer */
const noncesOf = ({ nonces, directives }) => {
  const names = joined(nonces.renamed.map(({ from, to }) => `${from} as ${to}`));
  const hasNew = directives.some(({ allowed }) =>
    allowed && 'nonce' in allowed.request && allowed.request.nonce);
  return [
    ...names === '' ? [] : [say('noncesRenamed', names)],
    ...hasNew && nonces.old !== nonces.new ? [say('noncesUnmatched', nonces.old, nonces.new)] : [],
  ];
};

/**
 * A proof, folded.
 * @param {string | undefined} proof
 */
export const proofBlock = proof =>
  copied(say('proof', (proof ?? '').split('\n').length - 1), proof, { file: 'proof.txt', isFolded: true });

/**
 * @param {import('../js/index.js').Program} program
 * @param {{ origin: string, old: Reading, new: Reading }} given
 * @returns {Answer}
 */
export const weaker = (program, { origin, old, new: newer }) => {
  const answer = ask(program, { origin, old: headersText(old.lines), new: headersText(newer.lines) });
  return {
    ...summed(answer),
    more: [say(answer.proved === undefined ? 'oneShown' : 'coversAll', origin), ...noncesOf(answer)],
    blocks: [
      ...uncoveredBlock(answer), ...directivesBlock(answer), ...auditBlock(answer),
      changeMatrix(program, { origin, old: old.lines, new: newer.lines }),
      ...readingBlocks(program, [old, newer]), ...proofBlock(answer.proved?.proof),
    ],
    unseen: ['report-only policies: not compared', ...answer.after.notCovered], data: answer,
  };
};
