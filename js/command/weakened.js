/** What is said of new headers beside old ones: weaker, of a pair and of a folder of pairs. */
import { describeText } from '../describe.js';
import { MEANS_NOTHING } from './compared.js';
import { counted } from './judged.js';
import { plain, table } from './page.js';

/**
 * @typedef {import('./words.js').Asked} Asked
 * @typedef {import('./words.js').Told} Told
 * @typedef {import('./words.js').Finding} Finding
 * @typedef {import('./page.js').Cell} Cell
 * @typedef {import('./page.js').Colour} Colour
 * @typedef {import('../weaker.js').Weakening} Weakening
 * @typedef {import('../weaker.js').Change} Change
 * @typedef {import('../answers.js').Shown} Shown
 */

const WEAKER = 1;
const FAULT = 70;

/** The exit code of each verdict. */
const STATUS = { 'not weaker': 0, weaker: WEAKER, loosened: WEAKER, nothing: MEANS_NOTHING, unproved: FAULT };

/** @param {string} text @param {Colour} colour @returns {Cell} */
const painted = (text, colour) => ({ text, colour });

/** @param {Shown | undefined} shown */
const textOf = shown => {
  if (shown === undefined) return '';
  const { request, url } = shown, text = describeText(request);
  return url === null || text.includes(url) ? text : `${text} (${url})`;
};

/** @param {Change} change */
const isAccepted = ({ allowed, left }) => allowed !== undefined && left === undefined;

/**
 * What no proof covers and that changed, which comes first.
 * @param {Weakening} answer
 * @param {import('./page.js').Page} page
 */
const uncoveredLines = ({ uncovered }, page) => {
  if (uncovered.length === 0) return [];
  const rows = uncovered.map(it => {
    const isLoose = it.loosens && it.accepted === undefined;
    return [isLoose ? painted(it.directive, 'red') : it.directive,
      it.accepted === undefined ? it.change : `${it.change}, accepted`, it.old, it.new];
  });
  const head = ['directive', 'change', 'old', 'new'];
  return ['Changed, and covered by no proof:', ...table(head, rows, page), ''];
};

/**
 * @param {Weakening} answer
 * @param {import('./page.js').Page} page
 */
const directiveLines = ({ directives }, page) => {
  const changed = directives.filter(it => it.change !== 'same');
  const rows = changed.map(it => {
    const colour = it.change === 'stricter' ? 'green' : isAccepted(it) ? 'yellow' : 'red';
    const change = isAccepted(it) ? `${it.change}, accepted` : it.change;
    return [it.directive, painted(change, colour), textOf(it.left ?? it.allowed), textOf(it.blocked)];
  });
  const same = directives.filter(it => it.change === 'same').map(it => it.directive).join(', ');
  const head = ['directive', 'change', 'now allowed', 'now blocked'];
  return [
    ...rows.length === 0 ? [] : [...table(head, rows, page), ''],
    ...same === '' ? [] : [`Same: ${same}.`, ''],
  ];
};

/** @param {string} can */
const isNo = can => can === 'no' || can === 'not named';

/**
 * What an attacker could do before and after, where that changed.
 * @param {Weakening} answer
 * @param {import('./page.js').Page} page
 */
const auditLines = ({ before, after }, page) => {
  const ids = [...new Set([...before.rows, ...after.rows].map(it => it.id))];
  const rows = ids.flatMap(id => {
    const [was, is] = [before, after].map(it => it.rows.find(row => row.id === id)), row = is ?? was;
    const [old, now] = [was?.can ?? 'not named', is?.can ?? 'not named'];
    if (row === undefined || old === now) return [];
    const colour = isNo(now) ? 'green' : isNo(old) ? 'red' : 'yellow';
    return [[`${row.action} ${row.from ?? ''}`.trim(), old, painted(now, colour)]];
  });
  const left = ids.length - rows.length, others = `${counted(left, 'thing')} that audit tries`;
  if (rows.length === 0) return [`What an attacker could do is the same: all ${others}.`, ''];
  return [...table(['an attacker could', 'old', 'new'], rows, page), `And as before: ${others}.`, ''];
};

/** @param {Weakening['uncovered']} uncovered */
const looseOf = uncovered => uncovered.filter(it => it.loosens && it.accepted === undefined);

/** @param {Weakening} answer */
const warningsOf = ({ nonces, accepted, directives }) => {
  const names = nonces.renamed.map(({ from, to }) => `${from} as ${to}`).join(', ');
  const hasNew = directives.some(({ left }) => left && 'nonce' in left.request && left.request.nonce);
  const all = accepted.map(({ directive, source = '', reason, needed }) => needed
    ? `Accepted: ${`${directive} ${source}`.trim()}: ${reason}.`
    : `Accepted without need: ${`${directive} ${source}`.trim()}. Nothing that is new needs it.`);
  return [
    ...names === '' ? []
      : [`The nonces are taken for those of two responses, and compared as the same: ${names}.`],
    ...hasNew && nonces.old !== nonces.new
      ? [`The nonces can't be matched: ${nonces.old} before, ${nonces.new} now.`
        + ' What carries a nonce of the new headers is new.'] : [],
    ...all,
  ];
};

/**
 * @param {Weakening} answer
 * @param {{ new: string, old: string }} names
 */
const sentenceOf = ({ verdict, uncovered, accepted }, names) => {
  const loose = looseOf(uncovered).map(it => it.directive).join(', ');
  const [but, all, more] = accepted.some(it => it.needed)
    ? [' but for what is accepted', 'all else', ', and not just what is accepted'] : ['', 'all', ''];
  return {
    'not weaker': `Not weaker${but}: ${names.new} blocks ${all} that ${names.old} blocks.`
      + ' Both checkers accept the proof.',
    weaker: `Weaker: ${names.new} allows what ${names.old} blocks${more}.`
      + (loose === '' ? '' : ` Besides, no proof covers what got looser: ${loose}.`),
    loosened: `Weaker outside the proof: ${names.new} loosens ${loose}, which no proof covers.`,
    nothing: `No answer: ${names.old} blocks nothing, so nothing is weaker than it.`,
    unproved: 'No answer: a checker rejects the proof. Please report this fault.',
  }[verdict];
};

/**
 * @param {boolean} isAccepted
 * @returns {Finding['level']}
 */
const levelOf = isAccepted => isAccepted ? 'warning' : 'error';

/**
 * @param {Weakening} answer
 * @param {{ new: string, old: string }} names
 * @param {number} line that of the first policy
 * @returns {Finding[]}
 */
const findingsOf = ({ uncovered, directives }, names, line) => {
  const at = { file: names.new, line };
  return [
    ...uncovered.filter(it => it.loosens).map(it => ({
      ...at, rule: it.directive, level: levelOf(it.accepted !== undefined),
      message: `${it.directive} is ${it.change}, which no proof covers. It was: ${plain(it.old) || 'absent'}`,
    })),
    ...directives.filter(it => it.allowed !== undefined).map(it => ({
      ...at, rule: it.directive, level: levelOf(isAccepted(it)),
      message: `${it.directive} is weaker: ${plain(textOf(it.left ?? it.allowed))} is now allowed, `
        + `which ${names.old} blocks`,
    })),
  ];
};

/**
 * @param {string} origin
 * @param {Weakening} answer
 */
const coversOf = (origin, { proved }) => {
  const proof = proved === undefined ? 'One request is shown for each directive; there may be more.'
    : 'The proof covers every request, whatever its host, nonce and code.';
  return `${proof} On a page of ${origin}. Not compared: report-only policies.`;
};

/**
 * @param {Weakening} answer
 * @param {Asked} asked
 * @returns {Told}
 */
export const tellWeakening = (answer, { names, lines, origin, page }) => {
  const pair = { new: names.new, old: names.old }, { verdict } = answer;
  return {
    lines: [...uncoveredLines(answer, page), ...directiveLines(answer, page), ...auditLines(answer, page)],
    mood: verdict !== 'not weaker' ? 'red' : answer.accepted.length > 0 ? 'yellow' : 'green',
    sentence: sentenceOf(answer, pair), warnings: warningsOf(answer), covers: coversOf(origin, answer),
    unseen: answer.after.notCovered, status: STATUS[verdict],
    findings: () => findingsOf(answer, pair, lines.new),
  };
};

/**
 * The files in which a proof is kept: the proof, and the headers that it is about, where those aren't the
 * given ones.
 * @param {Weakening} answer
 * @param {string} path
 * @returns {[string, string | Uint8Array][]}
 */
export const proofsOf = ({ proved, nonces, accepted }, path) => {
  if (proved === undefined) return [];
  const isOther = nonces.renamed.length > 0 || accepted.length > 0;
  return [[path, proved.proof], ...isOther ? /** @type {[string, string | Uint8Array][]} */ ([
    [`${path}.new.txt`, proved.new], [`${path}.old.txt`, proved.old],
  ]) : []];
};

/**
 * A pair of a folder, and what is said of it: an answer, or why there is none.
 * @typedef {{ name: string, origin: string, status: number, new: string, old: string, line: number,
 *   remarks: import('./headers.js').Remark[] } & ({ answer: Weakening } | { refused: string })} Paired
 */

/** @param {Weakening} answer */
export const statusOf = ({ verdict }) => STATUS[verdict];

/**
 * @param {Paired[]} pairs
 * @param {import('./page.js').Page} page
 * @returns {Told}
 */
export const tellPairs = (pairs, page) => {
  const rows = pairs.map(it => {
    if ('refused' in it) return [it.name, painted('no answer', 'red'), plain(it.refused)];
    const { verdict, uncovered, directives } = it.answer;
    const why = [
      ...looseOf(uncovered).map(it => `${it.directive} ${it.change}`),
      ...directives.filter(it => it.left !== undefined).map(it => it.directive),
    ].join(', ');
    return [it.name, painted(verdict, it.status === 0 ? 'green' : 'red'), why];
  });
  const good = pairs.filter(it => it.status === 0).length, bad = pairs.length - good;
  const isWeaker = pairs.some(it => it.status === WEAKER);
  return {
    lines: [...table(['pair', 'answer', 'weaker'], rows, page), ''], mood: bad === 0 ? 'green' : 'red',
    sentence: `${counted(pairs.length, 'pair')}: ${good} not weaker, ${bad} weaker or without an answer.`,
    warnings: pairs.flatMap(it => 'answer' in it ? warningsOf(it.answer).map(said => `${it.name}: ${said}`)
      : []),
    covers: 'A proof covers every request. Both checkers accept each proof. '
      + 'Not compared: report-only policies.',
    status: isWeaker ? WEAKER : pairs.find(it => it.status !== 0)?.status ?? 0,
    findings: () => pairs.flatMap(it => 'answer' in it ? findingsOf(it.answer, it, it.line)
      : [{ rule: 'no-answer', level: 'error', file: it.new, line: 1, message: plain(it.refused) }]),
  };
};
