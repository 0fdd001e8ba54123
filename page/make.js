/** A policy for what was given: by hosts, strict, or as an addition to the present one. */
import { propose } from '../js/propose.js';
import { code, copied, counted, grouped, groupedBy, list, number, table } from './answer.js';
import { possibleList } from './attacker.js';
import { say } from './sentences.js';

/**
 * @typedef {import('../js/propose.js').Proposal} Proposal
 * @typedef {import('../js/propose.js').Row} Row
 * @typedef {import('../js/propose.js').Count} Count
 * @typedef {import('../js/readers/html.js').Said & { file?: string }} Said
 * @typedef {import('./answer.js').Group} Group
 */

/** @param {Count} count */
const sumOf = ({ requests, reports }) => requests + reports;

/** @param {Count} count as `101 requests and 800 reports` */
const countText = ({ requests, reports }) => [
  ...requests > 0 || reports === 0 ? [counted(requests, 'request')] : [],
  ...reports > 0 ? [counted(reports, 'report')] : [],
].join(' and ');

/** @param {Row} row */
const placeOf = ({ file, page, line, isReport, count }) => {
  const name = file === undefined || /\.har$/i.test(file) ? page : file;
  return isReport ? counted(count, 'report') : `${name}${line === undefined ? '' : `, line ${line}`}`;
};

const COLUMNS = ['What', 'Where', 'Its hash'];

/** @param {Row} row */
const cellsOf = row =>
  [`${row.said}${row.isPossible ? ' (perhaps)' : ''}`, placeOf(row), code(row.hash ?? '')];

/**
 * @param {Row[]} rows with the same advice
 * @returns {Group}
 */
const groupOf = rows => ({
  mood: 'bad', badge: 'still blocked', directive: rows[0].directive, of: '', count: rows.length,
  because: [], todo: [say('instead', rows[0].advice)], columns: COLUMNS, rows: rows.map(cellsOf),
});

/** @param {Row[]} rows */
const stillBlocked = rows => {
  const groups = groupedBy(rows, it => `${it.directive}\n${it.advice}`).sort((a, b) => b.length - a.length);
  return grouped(say('stillBlocked', rows.length), groups.map(groupOf));
};

/** @param {Proposal} proposal */
export const additionsBlock = ({ additions, form }) => {
  const rows = form !== 'addition' ? [] : additions.map(it => [number(it.count), code(it.directive),
    code(it.sources.join(' ')), it.isTaken ? 'added' : 'left out: rare, may be noise']);
  return table(say('additions'), ['Ends', 'Directive', 'Sources', 'In the policy'], rows);
};

/**
 * How many violations additions would end.
 * @param {Proposal} proposal
 */
export const endingSentence = ({ before, after, additions }) => {
  const all = before === null ? 0 : sumOf(before);
  return say('wouldEnd', additions.filter(it => it.isTaken).length, all - sumOf(after), all);
};

/** @param {Proposal} proposal */
const madeSentences = proposal => {
  const { form, asked, after, nonces } = proposal, left = sumOf(after), isThen = nonces.length > 0;
  const all = countText(asked);
  const still = left === 0 ? say('noneStill', all, isThen) : say('someStill', left, all, isThen);
  return form === 'addition' ? [endingSentence(proposal), still] : [still];
};

/** @param {Proposal} proposal */
const blocksOf = proposal => {
  const { headers, shorter, nonces, blocked, audit } = proposal;
  return [
    ...copied(say('madePolicy'), headers.trimEnd(), { file: 'policy.txt' }), ...additionsBlock(proposal),
    ...table(say('needNonce', nonces.length), COLUMNS, nonces.map(cellsOf)), ...stillBlocked(blocked),
    ...list(say('stillPossible'), audit === null ? [] : possibleList(audit)),
    ...copied(say('madeShorter'), shorter?.trimEnd(), { isFolded: true }),
  ];
};

/** @param {readonly Said[]} left what is said of many places is told once */
const leftTexts = left => groupedBy(left, it => it.said).map(all => {
  const places = [...new Set(all.flatMap(it => it.file ?? []))];
  return places.length === 0 || places.length > 3 ? all[0].said : `${places.join(', ')}: ${all[0].said}`;
});

/**
 * @param {import('../js/index.js').Program} program
 * @param {import('../js/propose.js').Given & { left: Said[] }} given
 * @returns {Promise<import('./answer.js').Answer>}
 */
export const make = async (program, { left, ...given }) => {
  const proposal = await propose(program, given), { after, nonces, kept, gaps, cautions, unseen } = proposal;
  const [sentence, ...more] = madeSentences(proposal), isLeft = sumOf(after) + nonces.length > 0;
  return {
    mood: isLeft ? 'bad' : 'warn', sentence,
    more: [...gaps, ...more, ...kept.length > 0 ? [say('kept', kept.join('; '))] : [], ...cautions],
    unseen: [...leftTexts([...left, ...proposal.left]), ...unseen], blocks: blocksOf(proposal),
    data: proposal,
  };
};
