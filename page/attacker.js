/** What an attacker could do who writes markup into the page. */
import { audit } from '../js/index.js';
import { code, grouped, groupedBy, joined, list, ordinal, table } from './answer.js';
import { headersText, readingBlocks } from './reading.js';
import { say } from './sentences.js';

/**
 * @typedef {import('../js/index.js').Program} Program
 * @typedef {import('../js/audit.js').Audit} Audit
 * @typedef {import('../js/audit.js').Row} Row
 * @typedef {import('./answer.js').Answer} Answer
 * @typedef {import('./answer.js').Group} Group
 */

/** @param {Row} row whether it runs what the attacker wrote, and takes no more than markup */
const isCode = ({ runs, can, with: needs }) => runs && can !== 'no' && needs === undefined;

/** @param {Row} row whether it does so with something more */
const isHosted = row => row.runs && row.can !== 'no' && row.with !== undefined;

/**
 * @param {Audit} audit
 * @returns {Pick<Answer, 'mood' | 'sentence'>}
 */
const summed = ({ rows, blocksNothing }) => {
  const code = rows.filter(isCode).length, hosted = rows.filter(isHosted).length;
  const rest = rows.filter(it => it.can !== 'no' && !it.runs).length;
  if (blocksNothing) return { mood: 'bad', sentence: say('allPossible') };
  if (code > 0) return { mood: 'bad', sentence: say('runsCode', code, rest) };
  if (hosted > 0) return { mood: 'warn', sentence: say('runsHosted', hosted, rest) };
  if (rest > 0) return { mood: 'warn', sentence: say('noCode', rest) };
  return { mood: 'good', sentence: say('nothingPossible') };
};

const BADGES = { yes: 'possible', reported: 'possible, reported', no: 'blocked' };

/**
 * @param {import('../js/audit.js').Stop} stop
 * @param {number} policies
 */
const stopText = ({ text, policy, directive }, policies) => {
  if (policy === null) return policies < 2 ? text : `${text} in a new policy`;
  if (directive === null) return `enforce the ${policies < 2 ? '' : `${ordinal(policy)} `}policy`;
  return policies < 2 ? text : `${text} in the ${ordinal(policy)} policy`;
};

/**
 * @param {Row[]} rows of one action with one answer and one ground
 * @returns {Group}
 */
const groupOf = rows => {
  const [{ can, action, because, with: needs, stops, policies }] = rows;
  return {
    mood: rows.some(isCode) ? 'bad' : 'warn', badge: BADGES[can], directive: action, count: 1,
    of: joined(rows.flatMap(it => it.from ?? [])),
    because: [say('because', because), ...needs === undefined ? [] : [say('takes', needs)]],
    todo: stops.map(it => say('stops', stopText(it, policies.length))), columns: [], rows: [],
  };
};

/** @param {Row} row what the rows of a group have in common */
const keyOf = ({ action, can, because, with: needs, stops }) =>
  JSON.stringify([action, can, because, needs, stops.map(it => it.text)]);

/** @param {Row[]} rows */
const blockedRows = rows => groupedBy(rows, it => `${it.action}\n${it.because}`).map(all => {
  const what = `${all[0].action} ${joined(all.flatMap(it => it.from ?? []))}`;
  return [what.trim(), code(all[0].because.replace(/ blocks it$/, ''))];
});

/** @param {Audit['known'][0]} known */
const knownText = ({ directive, token, said }) =>
  `${token === null ? directive : `${directive} ${token}`}: ${said}`;

/** @param {Audit} audit */
const blocksOf = ({ rows, known }) => {
  const possible = rows.filter(it => it.can !== 'no'), not = rows.filter(it => it.can === 'no');
  const groups = groupedBy(possible, keyOf).map(groupOf)
    .sort((a, b) => Number(a.mood !== 'bad') - Number(b.mood !== 'bad'));
  return [
    ...grouped(say('possible', possible.length), groups), ...list(say('known'), known.map(knownText)),
    ...table(say('impossible', not.length), ['What', 'Blocked by'], blockedRows(not), { isFolded: true }),
  ];
};

/**
 * @param {Program} program
 * @param {{ origin: string, reading: import('./reading.js').Reading }} given
 * @returns {Answer}
 */
export const attacker = (program, { origin, reading }) => {
  const { lines } = reading, blocks = readingBlocks(program, [reading]);
  if (lines.length === 0) {
    return { mood: 'bad', sentence: say('noHeaders'), more: [], blocks, unseen: [], data: null };
  }
  const found = audit(program, { origin, headers: headersText(lines) });
  return {
    ...summed(found), more: [say('attackerOf', origin)], unseen: found.notCovered,
    blocks: [...blocks, ...blocksOf(found)], data: found,
  };
};

/** @param {Audit} audit what is possible, for an answer about something else */
export const possibleList = ({ rows, known }) =>
  [...rows.filter(it => it.can !== 'no').map(it => it.sentence), ...known.map(knownText)];
