/** What a browser tells of violations, where that isn't what the engine says. */
import { keyOf } from '../js/readers/hops.js';
import { urlOf } from '../js/readers/urls.js';
import { code, grouped, groupedBy, table } from './answer.js';
import { placeOf, sampleOf, short } from './rows.js';
import { say } from './sentences.js';

/**
 * @typedef {import('../js/beside.js').Beside} Beside
 * @typedef {import('./rows.js').PageAnswer} PageAnswer
 * @typedef {import('./answer.js').Group} Group
 */

/** @param {string} blocked a URL, or a word */
const hostIn = blocked => urlOf(blocked)?.host || blocked;

/** @param {Beside} beside */
const cellsOf = ({ violation: { blocked, page, file, line, sample } }) => {
  const where = [file || page, ...line === undefined ? [] : [`line ${line}`]].join(', ');
  return [short(blocked), where, code(short(sample))];
};

/**
 * @param {Beside[]} all of one directive and host
 * @returns {Group}
 */
const groupOf = all => {
  const [{ violation: { directive, blocked, disposition }, piece }] = all;
  const isReport = disposition === 'report';
  return {
    mood: isReport ? 'warn' : 'bad', badge: isReport ? 'reported' : 'blocked', directive, of: hostIn(blocked),
    count: all.length, because: [say(piece === undefined ? 'notGiven' : 'saysOther')], todo: [],
    columns: ['Which', 'Where', 'Code'], rows: all.map(cellsOf),
  };
};

/** @param {Beside} beside what those of a group have in common */
const groupKey = ({ violation: { directive, blocked, disposition }, piece }) =>
  [directive, hostIn(blocked), disposition, piece === undefined].join('\n');

/**
 * What a browser tells of and the answer doesn't, by directive and host.
 * @param {Beside[]} beside
 */
export const aloneBlock = beside =>
  grouped(say('toldAlone'), groupedBy(beside.filter(it => !it.isSame), groupKey).map(groupOf));

/**
 * What a browser says nothing of, on pages of which it tells anything.
 * @param {Beside[]} beside
 * @param {PageAnswer[]} answers
 */
export const untoldBlock = (beside, answers) => {
  const said = new Set(beside.map(it => it.piece));
  const pages = new Set(beside.map(it => keyOf(it.violation.page)));
  const rows = answers.filter(it => pages.has(keyOf(it.page.url)) || pages.has(''))
    .flatMap(({ page, judged }) => judged.map(it => ({ page, ...it })))
    .filter(({ piece, answer }) => answer.items.length > 0 && !said.has(piece))
    .map(it => [it.answer.blocked ? 'blocked' : 'reported', code(it.answer.items[0].effective),
      sampleOf(it.piece), placeOf(it)]);
  const columns = ['This answer', 'Directive', 'Which', 'Where'];
  return table(say('untold', rows.length), columns, rows, { isFolded: true });
};
