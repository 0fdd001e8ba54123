/** What is blocked: what the engine says of each page with its reasons, and what a browser says beside it. */
import { besideBrowser } from '../js/beside.js';
import { blocksNothing, why } from '../js/index.js';
import { NO_TEXT, WITHOUT_POLICY } from '../js/readers/har.js';
import { askOfPage } from '../js/sites.js';
import { allowingOf } from './allow.js';
import { grouped, list, table } from './answer.js';
import { headersText, readingBlocks, readingsOf } from './reading.js';
import { pageMatrix } from './matrix.js';
import { allowedRows, groupsOf, nameOf } from './rows.js';
import { say } from './sentences.js';
import { aloneBlock, untoldBlock } from './told.js';
import { unseenOf } from './unseen.js';

/**
 * @typedef {import('../js/index.js').Program} Program
 * @typedef {import('../js/readers/site.js').Site} Site
 * @typedef {import('../js/beside.js').Beside} Beside
 * @typedef {import('./rows.js').PageAnswer} PageAnswer
 * @typedef {import('./rows.js').Row} Row
 * @typedef {import('./answer.js').Answer} Answer
 * @typedef {import('./answer.js').Text} Text
 * @typedef {(done: number, all: number) => void} Tell
 */

/**
 * What was given: the pages, how the headers in the field were read, and the origin that stands for pages
 * that weren't given.
 * @typedef {{ site: Site, reading: import('./reading.js').Reading, origin: string }} Given
 */

/** @param {PageAnswer} answer whether the inline code of a page is among what was judged */
const hasInline = ({ page, judged }) => page.role === 'worker' || (page.text === undefined
  ? !page.unseen.includes(NO_TEXT) : judged.some(it => it.piece.request.kind === 'inline'));

const SCRIPTS = ['script', 'script-attribute', 'navigation'];

/** @param {PageAnswer} answer whether scripts run in a page of HTML, of which nobody tells what they load */
const hasScripts = ({ page, judged }) => page.role === undefined && page.text === undefined
  && judged.some(({ piece: { request: { destination, type } } }) =>
    destination === 'script' || SCRIPTS.includes(type));

/** @param {PageAnswer[]} answers */
const countsOf = answers => {
  const all = answers.flatMap(it => it.judged), blocked = all.filter(it => it.answer.blocked);
  return {
    all: all.length, blocked: blocked.length, perhaps: blocked.filter(it => it.piece.possible).length,
    reported: all.filter(it => !it.answer.blocked && it.answer.items.length > 0).length,
  };
};

/** @param {PageAnswer} answer whether it is a page, or a frame or a worker that asks for anything */
const asksAnything = ({ page: { role = 'page' }, judged }) => role === 'page' || judged.length > 0;

/** What is said of all pages together, and with which colour. */
class Summary {
  /**
   * @param {PageAnswer[]} answers
   * @param {Beside[]} beside
   */
  constructor(answers, beside) {
    this.answers = answers.filter(asksAnything);
    this.counts = countsOf(answers);
    this.enforced = answers.filter(it => it.page.isEnforced);
    this.nothing = answers.filter(it => it.isVoid && it.judged.length > 0);
    this.noInline = this.answers.filter(it => !hasInline(it));
    this.unrun = this.answers.filter(hasScripts);
    this.beside = beside;
    this.alone = beside.filter(it => !it.isSame);
  }

  // Good news only where all was looked at that can be, and no browser says anything
  get mood() {
    const { blocked, reported, all } = this.counts, { enforced, nothing, noInline, unrun, beside, alone } = this;
    if (blocked > 0 || alone.some(it => it.violation.disposition !== 'report')) return 'bad';
    const doubts = [enforced, nothing, noInline, unrun, beside].reduce((sum, it) => sum + it.length, reported);
    return all > 0 && doubts === 0 ? 'good' : 'warn';
  }

  get where() {
    const { length } = this.answers, isPages = this.answers.every(it => (it.page.role ?? 'page') === 'page');
    return length < 2 ? '' : ` on ${length} ${isPages ? 'pages' : 'pages, frames and workers'}`;
  }

  /** @returns {Text} */
  get sentence() {
    const { counts: { all, blocked }, alone, answers } = this;
    if (alone.length > 0) {
      return answers.length === 0 ? say('eventsAlone', alone.length)
        : say('browserAlone', alone.length, blocked, all);
    }
    if (all === 0) return say('nothingJudged');
    return blocked === 0 ? say('noneBlocked', all, this.where) : say('someBlocked', blocked, all, this.where);
  }

  /** @returns {Text[]} */
  get more() {
    const { perhaps, reported, blocked } = this.counts, { beside, alone, answers } = this;
    return [
      ...this.enforced.length > 0 ? [say('recordedEnforced')] : [],
      ...perhaps > 0 ? [say('perhapsBlocked', perhaps)] : [],
      ...reported > 0 ? [say('wouldBlock', reported, blocked)] : [],
      ...this.nothing.map(it => say('decidesNothing', nameOf(it.page))),
      ...this.noInline.length > 0 ? [say('inlineNotGiven', this.noInline.map(it => nameOf(it.page)))] : [],
      ...this.unrun.length > 0 ? [say('scriptsNotRun', this.unrun.map(it => nameOf(it.page)))] : [],
      ...beside.length > 0 && answers.length > 0
        ? [say('browserTells', beside.length, beside.length - alone.length)] : [],
    ];
  }
}

/** @param {PageAnswer[]} answers */
const pagesBlock = answers => {
  const rows = answers.filter(asksAnything).map(it => {
    const { all, blocked, reported } = countsOf([it]), { role = 'page' } = it.page;
    const name = role === 'page' ? nameOf(it.page) : `${role} ${nameOf(it.page)}`;
    return [name, ...[blocked, reported, all].map(String)];
  });
  return rows.length < 2 ? [] : table(say('byPage'), ['Page', 'Blocked', 'Reported', 'Of'], rows);
};

const recipe = () => [
  ...list(say('recordInChromium'), WITHOUT_POLICY.chromium, { isFolded: true, isOrdered: true }),
  ...list(say('recordInFirefox'), WITHOUT_POLICY.firefox, { isFolded: true, isOrdered: true }),
];

/**
 * @param {PageAnswer[]} answers
 * @param {Beside[]} beside
 */
const dataOf = (answers, beside) => {
  const said = new Set(beside.map(it => it.piece));
  const pages = answers.map(({ page, judged }) => {
    const { file, url, origin, role = 'page', isEnforced: recordedUnderPolicy = false } = page;
    const items = judged.map(({ piece, answer: { checks, ...answer } }) => {
      const { request, line, column, possible = false } = piece;
      return { ...answer, request, line, column, possible, browser: said.has(piece) };
    });
    return { file, url, origin, role, recordedUnderPolicy, items };
  });
  return { pages, browserAlone: beside.filter(it => !it.isSame).map(it => it.violation) };
};

/**
 * @param {Program} program
 * @param {PageAnswer[]} answers
 */
const rowsOf = async (program, answers) => {
  const rows = /** @type {Row[]} */ ([]);
  for (const it of answers) {
    const allowing = await allowingOf(program, it), { page } = it;
    rows.push(...it.judged.map(of => ({ page, ...of, allowing: allowing.get(of.piece) })));
  }
  return rows;
};

/**
 * How the headers of pages were read, or those of the field.
 * @param {Program} program
 * @param {Given} given
 */
const readingBlocksOf = (program, { site, reading }) => {
  const own = readingsOf(site.pages), { left } = reading;
  const read = own.length === 0 ? [reading] : own.length === 1 ? [{ ...own[0], left }] : own;
  return readingBlocks(program, read);
};

/**
 * What is blocked of all that was given.
 * @param {Program} program
 * @param {Given} given
 * @param {Tell} tell
 * @returns {Promise<Answer>}
 */
export const blocked = async (program, given, tell) => {
  const { pages, events } = given.site;
  if (pages.length === 0 && events.length === 0) return headersAlone(program, given);
  const answers = pages.map((page, n) => {
    tell(n, pages.length);
    return askOfPage(program, page, why);
  });
  const beside = besideBrowser(answers, events.flatMap(it => it.rows));
  const summary = new Summary(answers, beside), columns = ['Times', 'What', 'Allowed by'];
  const rows = await rowsOf(program, answers), not = rows.filter(it => it.answer.items.length > 0);
  const allowed = allowedRows(rows.filter(it => it.answer.items.length === 0));
  return {
    mood: summary.mood, sentence: summary.sentence, more: summary.more, unseen: unseenOf(given.site),
    blocks: [
      ...readingBlocksOf(program, given), ...aloneBlock(beside),
      ...grouped(say('notAllowed'), groupsOf(program, not)),
      ...untoldBlock(beside, answers), ...pagesBlock(answers), ...pageMatrix(program, answers),
      ...table(say('allowed', rows.length - not.length), columns, allowed, { isFolded: true }),
      ...summary.enforced.length > 0 ? recipe() : [],
    ],
    data: dataOf(answers, beside),
  };
};

/**
 * What is told of headers where nothing was given that a page loads.
 * @param {Program} program
 * @param {Given} given
 * @returns {Answer}
 */
const headersAlone = (program, { reading, origin }) => {
  const { lines } = reading, isVoid = blocksNothing(program, { origin, headers: headersText(lines) });
  return {
    mood: 'warn', sentence: say('nothingJudged'),
    more: [...isVoid ? [say('decidesNothing', 'a page with these headers')] : [], say('giveAPage')],
    blocks: [...readingBlocks(program, [reading]), ...pageMatrix(program, [], { origin, lines })],
    unseen: [], data: { pages: [], browserAlone: [] },
  };
};
