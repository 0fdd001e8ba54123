/** What browsers sent as violation reports: grouped, noise apart, and what would end them. */
import { judge } from '../js/index.js';
import { propose } from '../js/propose.js';
import { Reports, Tally } from '../js/readers/reports.js';
import { urlOf } from '../js/readers/urls.js';
import { code, copied, grouped, groupedBy, number } from './answer.js';
import { additionsBlock, endingSentence } from './make.js';
import { headersText, readingBlocks } from './reading.js';
import { short } from './rows.js';
import { say } from './sentences.js';

/**
 * @typedef {import('../js/index.js').Program} Program
 * @typedef {import('../js/readers/reports.js').Group} Reported
 * @typedef {Reported & { still?: boolean }} Judged `still` says whether the headers would report it again
 * @typedef {import('./answer.js').Answer} Answer
 * @typedef {import('./answer.js').Block} Block
 * @typedef {import('./answer.js').Group} Group
 * @typedef {{ name: string, content: Blob | string }} Log
 * @typedef {{ logs: Log[], reading: import('./reading.js').Reading }} Given
 */

const CHUNK = 1 << 20;

/**
 * @param {Blob} blob in pieces that a text can hold
 * @param {(size: number) => void} tell
 */
async function* chunksOf(blob, tell) {
  for (let at = 0; at < blob.size; at += CHUNK) {
    yield new Uint8Array(await blob.slice(at, at + CHUNK).arrayBuffer());
    tell(CHUNK);
  }
}

/**
 * @param {Log[]} logs
 * @param {(done: number, all: number) => void} tell
 */
export const readLogs = async (logs, tell) => {
  const tally = new Tally(), left = /** @type {string[]} */ ([]);
  const blobs = logs.map(it => new Blob([it.content])), all = blobs.reduce((sum, it) => sum + it.size, 0);
  let done = 0, violations = 0, isWhole = true, isEmpty = true;
  for (const [n, { name }] of logs.entries()) {
    const reports = new Reports(chunksOf(blobs[n], size => tell(done += size, all)));
    for await (const { violation } of reports) tally.add(violation);
    violations += reports.violations;
    isWhole &&= reports.isWhole;
    isEmpty &&= reports.isEmpty;
    left.push(...reports.left.map(it => logs.length > 1 ? `${name}: ${it}` : it));
  }
  return { tally, left, violations, isWhole, isEmpty };
};

/** @param {Reported} group */
const originOf = ({ violation: { page } }) => urlOf(page)?.origin ?? 'null';

/**
 * Which violations headers would still report, each on a page of its own origin.
 * @param {Program} program
 * @param {ReturnType<Tally['ended']>['groups']} groups
 * @param {string} headers
 */
const stillReported = (program, groups, headers) => {
  const still = /** @type {Map<unknown, boolean>} */ (new Map());
  for (const all of groupedBy(groups, originOf)) {
    const requests = /** @type {any} */ (all.map(it => it.request));
    const verdicts = judge(program, { origin: originOf(all[0]), headers, requests });
    verdicts.forEach(({ items }, n) => still.set(all[n].violation, items.length > 0));
  }
  return still;
};

/** @param {Reported} group */
const hostOf = ({ violation: { blocked } }) => urlOf(blocked)?.host || blocked;

/** @param {Judged} group */
const cellsOf = ({ violation: { blocked, file, page, line, column, sample }, pages, count }) => {
  const where = [file || page, line, column].filter(it => it !== undefined && it !== '').join(':');
  const many = pages.size > 1 ? ` (${pages.size} pages)` : '';
  return [number(count), code(short(blocked)), where + many, code(short(sample))];
};

const MOODS = /** @type {const} */ ({
  'blocked': 'bad', 'reported': 'warn', 'still reported': 'bad', 'ended': 'plain',
});

/**
 * @param {Judged} group
 * @returns {keyof typeof MOODS}
 */
const badgeOf = ({ still, violation: { disposition } }) => {
  if (still !== undefined) return still ? 'still reported' : 'ended';
  return disposition === 'enforce' ? 'blocked' : 'reported';
};

/**
 * @param {Judged[]} all of one directive and host
 * @returns {Group}
 */
const groupOf = all => {
  const badge = badgeOf(all[0]), pages = new Set(all.flatMap(it => [...it.pages]));
  return {
    mood: MOODS[badge], badge, directive: all[0].violation.directive, of: hostOf(all[0]),
    count: all.reduce((sum, it) => sum + it.count, 0), because: [say('onPages', [...pages])], todo: [],
    columns: ['Times', 'Blocked', 'Where', 'Sample'], rows: all.map(cellsOf),
  };
};

/** @param {Judged[]} groups */
const shownGroups = groups =>
  groupedBy(groups, it => [it.violation.directive, hostOf(it), badgeOf(it)].join('\n')).map(groupOf)
    .sort((a, b) => Number(a.badge === 'ended') - Number(b.badge === 'ended') || b.count - a.count);

/**
 * What would end the reports, if headers are given to add to.
 * @param {Program} program
 * @param {Reported[]} reports
 * @param {string[]} headers
 * @returns {Promise<Block[]>}
 */
const endingBlocks = async (program, reports, headers) => {
  if (headers.length === 0 || reports.length === 0) return [];
  const proposal = await propose(program, { form: 'addition', reports, headers });
  if (proposal.additions.length === 0) return [];
  const policy = proposal.additions.some(it => it.isTaken) ? proposal.headers.trimEnd() : '';
  return [
    { kind: 'paragraph', text: endingSentence(proposal) }, ...additionsBlock(proposal),
    ...copied(say('withAdditions'), policy, { file: 'policy.txt' }),
  ];
};

/**
 * @param {Program} program
 * @param {Given} given
 * @param {(done: number, all: number) => void} tell
 * @returns {Promise<Answer>}
 */
export const reports = async (program, { logs, reading }, tell) => {
  const { tally, left, violations, isWhole, isEmpty } = await readLogs(logs, tell), { lines } = reading;
  const ended = tally.ended(), isJudged = lines.length > 0;
  const still = isJudged ? stillReported(program, ended.groups, headersText(lines)) : new Map();
  const groups = [...tally.groups.values()].map(it => ({ ...it, still: still.get(it.violation) }));
  const count = groups.filter(it => it.still).reduce((sum, it) => sum + it.count, 0);
  const sentence = isEmpty ? say('noReport') : violations === 0 ? say('noViolation')
    : isJudged ? say('stillReports', count, violations) : say('violations', violations, groups.length);
  const isEnded = groups.length > 0 && groups.every(it => it.still === false);
  return {
    mood: count > 0 ? 'bad' : 'warn', sentence,
    more: [...isWhole ? [] : [say('notAllRead')], ...isEnded ? [say('endedNotAll')] : [], say('ofBrowsers')],
    blocks: [
      ...isJudged ? readingBlocks(program, [reading]) : [],
      ...await endingBlocks(program, ended.groups, lines),
      ...grouped(say('reported', violations), shownGroups(groups)),
    ],
    unseen: [...left, ...ended.left],
    data: groups.map(({ violation, count: times, pages, still: isStill = null }) =>
      ({ ...violation, count: times, pages: [...pages], ...isJudged ? { still: isStill } : {} })),
  };
};
