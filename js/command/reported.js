/** The word reports: violation reports that browsers sent, counted by what they tell. */
import { createReadStream, existsSync } from 'node:fs';
import { judge } from '../index.js';
import { Reports, Tally } from '../readers/reports.js';
import { urlOf } from '../readers/urls.js';
import { Refusal } from '../refusal.js';
import { ALLOWED, BLOCKED, MANY, counted, leftOut, number } from './judged.js';
import { table } from './page.js';

/**
 * @typedef {import('../readers/reports.js').Group} Group
 * @typedef {Group & { still?: boolean }} Counted `still` says whether the headers would report it again
 * @typedef {import('./words.js').Told} Told
 */

const READ_FAULT = 8;

/** The exit code where something that was given wasn't read as a report. */
export const NOT_ALL_READ = 16;

/**
 * The streams of reports in files.
 * @param {string[]} paths
 */
export function* streamsOf(paths) {
  for (const path of paths) {
    if (path !== '-' && !existsSync(path)) {
      throw new Refusal(READ_FAULT, { file: path, problem: 'there is no such file' });
    }
    yield { path, reports: new Reports(path === '-' ? process.stdin : createReadStream(path)) };
  }
}

/**
 * Reads streams of reports, one after the other, in memory that doesn't grow with them.
 * @param {string[]} paths
 */
const readAll = async paths => {
  const tally = new Tally(), all = /** @type {{ path: string, reports: Reports }[]} */ ([]);
  for (const it of streamsOf(paths)) {
    for await (const { violation } of it.reports) tally.add(violation);
    all.push(it);
  }
  return { tally, all };
};

/**
 * Which violations headers would still report, each on a page of its own origin.
 * @param {import('../index.js').Program} program
 * @param {ReturnType<Tally['ended']>['groups']} groups
 * @param {string | Uint8Array} headers
 */
const stillReported = (program, groups, headers) => {
  const byOrigin = /** @type {Map<string, typeof groups>} */ (new Map());
  for (const it of groups) {
    const origin = urlOf(it.violation.page)?.origin ?? 'null', others = byOrigin.get(origin);
    if (others === undefined) byOrigin.set(origin, [it]);
    else others.push(it);
  }
  const still = /** @type {Map<import('../readers/reports.js').Violation, boolean>} */ (new Map());
  for (const [origin, some] of byOrigin) {
    const requests = /** @type {any} */ (some.map(it => it.request));
    const verdicts = judge(program, { origin, headers, requests });
    verdicts.forEach(({ items }, n) => still.set(some[n].violation, items.length > 0));
  }
  return still;
};

/** @param {Group} group where it happened: page, and file with line and column */
const placeOf = ({ violation: { page, file, line, column }, pages }) => {
  const at = [line, column].filter(it => it !== undefined).join(':');
  const place = [file === '' ? page : file, at].filter(it => it !== '').join(':');
  return file === '' || file === page ? pages.size > 1 ? `${place} and ${pages.size - 1} more` : place
    : `${place} on ${pages.size > 1 ? counted(pages.size, 'page') : page}`;
};

/** @param {Group} group */
const hostOf = ({ violation: { blocked } }) => urlOf(blocked)?.host || blocked;

/** @param {Counted} group */
const stillCell = ({ still }) => {
  if (still === undefined) return '-';
  return still ? { ...BLOCKED, text: 'still' } : { ...ALLOWED, text: 'ended' };
};

/**
 * Groups by directive and host, each with the sum of their counts.
 * @param {Counted[]} groups
 */
const byHost = groups => {
  const sums = /** @type {Map<string, Counted>} */ (new Map());
  for (const it of groups) {
    const key = [it.violation.directive, hostOf(it), it.still].join(' '), sum = sums.get(key);
    const pages = new Set([...sum?.pages ?? [], ...it.pages]);
    sums.set(key, { ...it, count: (sum?.count ?? 0) + it.count, pages });
  }
  return [...sums.values()].sort((a, b) => b.count - a.count);
};

/**
 * @param {Counted[]} groups
 * @param {boolean} isJudged
 * @param {{ page: import('./page.js').Page, options: { all: boolean } }} asked
 */
const tableOf = (groups, isJudged, { page, options }) => {
  if (groups.length === 0) return [];
  const next = isJudged ? ['then'] : [];
  const cell = (/** @type {Counted} */ it) => isJudged ? [stillCell(it)] : [];
  if (groups.length <= MANY || options.all) {
    const rows = groups.map(it => {
      const { directive, blocked, sample } = it.violation;
      return [number(it.count), ...cell(it), directive, blocked, placeOf(it), sample];
    });
    return [...table(['times', ...next, 'directive', 'blocked', 'where', 'sample'], rows, page), ''];
  }
  const sums = byHost(groups), rows = sums.slice(0, MANY).map(it => [
    number(it.count), ...cell(it), it.violation.directive, hostOf(it), [...it.pages][0],
    number(it.pages.size),
  ]);
  const head = ['times', ...next, 'directive', 'blocked', 'page', 'pages'];
  return [...table(head, rows, page), '', leftOut(sums.length - MANY), ''];
};

const NOTHING = 'No report stands in this: it says nothing of what is blocked.';

/**
 * @param {{ path: string, reports: Reports }[]} all
 * @param {number} still
 * @param {boolean} isJudged
 */
const sentenceOf = (all, still, isJudged) => {
  const sum = all.reduce((count, it) => count + it.reports.violations, 0);
  if (all.every(it => it.reports.isEmpty)) return NOTHING;
  const none = 'No violation of the pages themselves was reported.';
  const said = sum === 0 ? none : `${counted(sum, 'violation')}.`;
  return isJudged ? `${said} The headers would still report ${number(still)} of them.` : said;
};

/**
 * What reports tell, and which of them headers would still send.
 * @param {{ program: import('../index.js').Program, paths: string[], options: { all: boolean },
 *   headers?: string | Uint8Array, page: import('./page.js').Page }} asked
 * @returns {Promise<{ answer: unknown, told: Told }>}
 */
export const tellSent = async ({ program, paths, headers, page, options }) => {
  const { tally, all } = await readAll(paths), { groups: ended, left } = tally.ended();
  const isJudged = headers !== undefined;
  const still = isJudged ? stillReported(program, ended, headers) : new Map();
  const groups = [...tally.groups.values()].sort((a, b) => b.count - a.count)
    .map(it => ({ ...it, still: /** @type {boolean | undefined} */ (still.get(it.violation)) }));
  const sum = groups.filter(it => it.still).reduce((count, it) => count + it.count, 0);
  const isWhole = all.every(it => it.reports.isWhole);
  const named = all.flatMap(({ path, reports }) =>
    reports.left.map(it => all.length > 1 ? `${path}: ${it}` : it));
  /** @type {Told} */
  const told = {
    lines: tableOf(groups, isJudged, { page, options }),
    mood: sum > 0 ? 'red' : isWhole && groups.every(it => it.still === false) ? 'green' : 'yellow',
    sentence: sentenceOf(all, sum, isJudged),
    warnings: isWhole ? [] : ['Not all of what was given was read as reports: see below.'],
    covers: `Looked at: ${paths.join(', ')}. What nobody's browser reported isn't in it.`,
    unseen: [...named, ...isJudged ? left : []],
    status: isWhole ? sum > 0 ? 1 : 0 : NOT_ALL_READ, findings: () => [],
  };
  const answer = groups.map(({ violation, count, pages, still: isStill }) =>
    ({ ...violation, count, pages: [...pages], ...isJudged ? { still: isStill ?? null } : {} }));
  return { answer, told };
};
