/** What is said of the pages of a site, by page and in sum: judge, why, report and learn. */
import { besideBrowser } from '../beside.js';
import { describe, describeText, hostOf } from '../describe.js';
import * as calls from '../index.js';
import { ENFORCED, WITHOUT_POLICY } from '../readers/har.js';
import { keyOf } from '../readers/hops.js';
import { questionsOf } from '../readers/site.js';
import { Refusal } from '../refusal.js';
import { askOfPage } from '../sites.js';
import { tellLearnt } from './compared.js';
import {
  BLOCKED, REPORTED, MANY, answerOf, counted, groundText, grouped, leftOut, number, ordinal, toldReports,
} from './judged.js';
import { plain, table, wrapped } from './page.js';

/**
 * @typedef {import('../readers/site.js').Site} Site
 * @typedef {import('../readers/site.js').SitePage} SitePage
 * @typedef {import('./words.js').Told} Told
 * @typedef {import('../index.js').Verdict} Verdict
 * @typedef {import('../index.js').Reason} Reason
 */

/**
 * @template {Verdict} Answer
 * @typedef {import('../sites.js').PageAnswer<Answer>} PageAnswer
 */

/**
 * @typedef {{ program: calls.Program, site: Site, options: { all: boolean }, page: import('./page.js').Page
 *   }} Asked
 * @typedef {(asked: Asked) => { answer: unknown, told: Told }} OfSite
 */

const USAGE = 2;

/** The exit code of a yes that would mean nothing. */
const MEANS_NOTHING = 15;

/**
 * The name of a page, with its file where there are several.
 * @param {SitePage} page
 * @param {Site} site
 */
const nameOf = ({ url, file, role, frameOf }, { pages }) => {
  if (url === '') return file;
  const of = role === undefined || role === 'page' ? '' : `, a ${role} of ${frameOf}`;
  return pages.some(it => it.file !== file) ? `${url}${of} (${file})` : url + of;
};

/**
 * What a piece is, with the URL that the page asks for.
 * @param {import('../readers/html.js').Piece} piece
 */
const textOf = ({ request }) => {
  const text = describeText(request), { url } = request;
  return typeof url !== 'string' || text.includes(url) ? text : `${text} ${url}`;
};

/**
 * The answer about a piece, and how sure it is that the page does it.
 * @param {{ piece: import('../readers/html.js').Piece, item: calls.Item }} row
 */
const cellOf = ({ piece, item }) => {
  const answer = answerOf(item);
  return piece.possible ? { ...REPORTED, text: `${answer.text}?` } : answer;
};

/** @param {calls.Item} item @param {boolean} several */
const byOf = ({ policy, governing }, several) => governing + (several ? `, ${ordinal(policy)} policy` : '');

/**
 * The rows of a page: each policy that doesn't allow a piece.
 * @param {PageAnswer<Verdict>} answer
 */
const rowsOf = ({ judged }) => judged.flatMap(({ piece, answer: { items } }) =>
  items.map(item => ({ piece, item })));

/**
 * @param {ReturnType<typeof rowsOf>} rows
 * @param {Asked} asked
 */
const tableOf = (rows, { page, options }) => {
  const several = new Set(rows.map(({ item }) => item.policy)).size > 1;
  if (rows.length <= MANY || options.all) {
    const cells = rows.map(it => [cellOf(it), textOf(it.piece), byOf(it.item, several)]);
    return table(['answer', 'request', 'by'], cells, page);
  }
  const of = (/** @type {typeof rows[0]} */ { piece: { request } }) =>
    `${describe(request).what} ${request.kind === 'inline' ? '' : hostOf(request)}`.trim();
  const groups = grouped(rows, it => [cellOf(it).text, byOf(it.item, several), of(it)].join(' '));
  const cells = groups.slice(0, MANY)
    .map(({ row, count }) => [number(count), cellOf(row), of(row), byOf(row.item, several)]);
  return [...table(['times', 'answer', 'requests', 'by'], cells, page), leftOut(groups.length - MANY)];
};

/** @param {PageAnswer<Verdict>} answer */
const countsOf = ({ judged }) => ({
  all: judged.length,
  blocked: judged.filter(it => it.answer.blocked).length,
  reported: judged.filter(it => !it.answer.blocked && it.answer.items.length > 0).length,
  possible: judged.filter(it => it.answer.blocked && it.piece.possible).length,
});

/** @param {PageAnswer<Verdict>[]} answers */
const summed = answers => answers.map(countsOf).reduce((sum, it) => ({
  all: sum.all + it.all, blocked: sum.blocked + it.blocked, reported: sum.reported + it.reported,
  possible: sum.possible + it.possible,
}), { all: 0, blocked: 0, reported: 0, possible: 0 });

/** @param {PageAnswer<Verdict>[]} answers */
const sentenceOf = answers => {
  const { all, blocked, reported, possible } = summed(answers);
  if (all === 0) return 'Nothing that a policy decides stands in these files, so nothing was judged.';
  const pages = answers.filter(asksAnything).length;
  const where = pages > 1 ? ` on ${number(pages)} pages, frames and workers` : '';
  const count = blocked === 0 ? 'None' : number(blocked), is = blocked > 1 ? 'are' : 'is';
  const sure = possible === 0 ? '' : ` Of these ${number(possible)} may not happen: the page names`
    + ' them, and a browser may do without (blocked?).';
  const more = blocked === 0 ? `But ${number(reported)}` : counted(reported, 'other');
  const also = reported === 0 ? '' : ` ${more} would be, if report-only policies were enforced.`;
  return `${count} of ${counted(all, 'request')}${where} ${is} blocked.${sure}${also}`;
};

/**
 * Whether it is a page, or a frame or a worker that asks for anything.
 * @param {PageAnswer<Verdict>} answer
 */
const asksAnything = ({ page: { role = 'page' }, judged }) => role === 'page' || judged.length > 0;

/**
 * A line for each page with its counts.
 * @param {PageAnswer<Verdict>[]} answers
 * @param {Asked} asked
 */
const pagesTable = (answers, { page, site }) => {
  const all = answers.filter(asksAnything);
  if (all.length < 2) return [];
  const cells = all.map(it => {
    const { all: count, blocked, reported } = countsOf(it);
    const red = blocked > 0 ? { text: number(blocked), colour: BLOCKED.colour } : '0';
    const yellow = reported > 0 ? { text: number(reported), colour: REPORTED.colour } : '0';
    return [red, yellow, number(count), nameOf(it.page, site)];
  });
  return [...table(['blocked', 'reported', 'of', 'page'], cells, page), ''];
};

/** @param {string} said a remark of several pages is told once */
const asLine = said => said.charAt(0).toUpperCase() + said.slice(1);

/**
 * What was not looked at, or is known only in part: a line each, with the pages that it is said of.
 * @param {Site} site
 */
const unseenOf = ({ pages, left, events }) => {
  const said = /** @type {Map<string, Set<string>>} */ (new Map());
  const add = (/** @type {string} */ file, /** @type {string} */ text) =>
    said.set(text, (said.get(text) ?? new Set()).add(file));
  const placed = (/** @type {import('../readers/html.js').Said} */ { line, said: text }) =>
    line === undefined ? text : `line ${line}: ${text}`;
  for (const it of pages) {
    const name = it.url || it.file;
    for (const text of it.unseen) if (!text.endsWith(ENFORCED)) add(name, text);
    for (const of of it.left) add(name, placed(of));
  }
  for (const it of events) for (const text of it.unseen) add(it.file, text);
  for (const it of left) add(it.file, placed(it));
  const isOne = pages.length + left.length < 2;
  return [...said].map(([text, where]) => {
    const names = where.size > 1 ? `${number(where.size)} pages` : [...where][0];
    return isOne || where.size === pages.length ? text : `${names}: ${text}`;
  });
};

const STEPS = [
  'To record a page without its policy in Chromium:',
  ...WITHOUT_POLICY.chromium.map((it, n) => `${n + 1}. ${it}`),
  'In Firefox:', ...WITHOUT_POLICY.firefox.map((it, n) => `${n + 1}. ${it}`),
];

/**
 * What is told of every answer about a site.
 * @param {Site} site
 */
const commonOf = site => {
  const enforced = site.pages.filter(it => it.isEnforced), origins = new Set(site.pages.map(it => it.origin));
  const roles = ['page', 'frame', 'worker'].flatMap(role => {
    const count = site.pages.filter(it => (it.role ?? 'page') === role).length;
    return count === 0 ? [] : [counted(count, role)];
  });
  return {
    first: enforced.length > 0 ? `${asLine(ENFORCED)}. See below how to record without it.` : undefined,
    covers: `Looked at: ${roles.join(', ')}, of ${[...origins].join(', ')}.`,
    unseen: unseenOf(site), steps: enforced.length > 0 ? STEPS : [],
  };
};

/**
 * @param {PageAnswer<Verdict>[]} answers
 * @param {Asked} asked
 * @param {string[]} lines
 * @returns {Told}
 */
const toldOf = (answers, { site }, lines) => {
  const { all, blocked, reported } = summed(answers);
  const isVoid = answers.filter(it => it.isVoid && it.judged.length > 0);
  const common = commonOf(site), isGood = common.first === undefined && isVoid.length === 0;
  return {
    ...common, lines, sentence: sentenceOf(answers),
    mood: blocked > 0 ? 'red' : reported > 0 || all === 0 || !isGood ? 'yellow' : 'green',
    warnings: isVoid.map(it => `${nameOf(it.page, site)}: no enforced policy decides anything there.`),
    status: blocked > 0 ? 1 : common.first === undefined ? 0 : MEANS_NOTHING,
    findings: () => answers.flatMap(it => rowsOf(it).map(({ piece, item }) => ({
      rule: item.effective, level: item.disposition === 'enforce' ? 'error' : 'warning',
      file: it.page.file, line: piece.line ?? 1,
      message: `${plain(textOf(piece))} is ${answerOf(item).text} by ${item.governing}`
        + ` of the ${ordinal(item.policy)} policy`,
    }))),
  };
};

/**
 * What browsers say themselves, beside the answers, and which pages they say something of.
 * @param {PageAnswer<Verdict>[]} answers
 * @param {Site} site
 */
const browserOf = (answers, { events }) => {
  const rows = events.flatMap(it => it.rows), beside = besideBrowser(answers, rows);
  const said = new Set(beside.filter(it => it.isSame).map(it => it.piece));
  return { beside, said, isAny: events.length > 0 };
};

/**
 * The rows where a browser and the engine differ.
 * @param {PageAnswer<Verdict>[]} answers
 * @param {Asked} asked
 */
const differences = (answers, { site, page }) => {
  const { beside, said, isAny } = browserOf(answers, site);
  if (!isAny) return { lines: [], warnings: [] };
  const more = beside.filter(it => !it.isSame).map(({ violation, piece }) => {
    const { directive, blocked, line, sample } = violation, at = line === undefined ? '' : `line ${line}`;
    const text = [blocked, at, sample].filter(it => it !== '').join(' ');
    return [piece === undefined ? 'not read' : 'allowed', 'blocked', directive, text];
  });
  const pages = new Set(beside.map(it => keyOf(it.violation.page)));
  const less = answers.filter(it => pages.has(keyOf(it.page.url)) || pages.has('')).flatMap(it => it.judged)
    .filter(({ piece, answer }) => answer.items.length > 0 && !said.has(piece))
    .map(({ piece, answer: { items: [item] } }) =>
      [answerOf(item).text, 'says nothing', item.effective, textOf(piece)]);
  const rows = [...more, ...less], sum = counted(beside.length, 'violation');
  return {
    lines: rows.length === 0 ? []
      : [...table(['engine', 'browser', 'directive', 'where they differ'], rows, page), ''],
    warnings: [`The browser tells ${sum}; ${number(beside.length - more.length)} of them stand above too.`],
  };
};

/**
 * The answer for programs.
 * @param {PageAnswer<Verdict>[]} answers
 * @param {Set<import('../readers/html.js').Piece | undefined>} [said] what a browser says is blocked
 */
const plainAnswer = (answers, said) => answers.map(({ page, judged }) => {
  const { file, url, origin, role = 'page', isEnforced: recordedUnderPolicy = false } = page;
  const items = judged.map(({ piece, answer }) => {
    const { request, line, column, possible = false } = piece;
    const own = { request, line, column, possible, ...said ? { browser: said.has(piece) } : {} };
    return Object.assign({}, answer, own); // in V8 several times as fast as { ...answer, .. }
  });
  return { file, url, origin, role, recordedUnderPolicy, items };
});

/** @type {OfSite} */
export const judgeSite = asked => {
  const answers = asked.site.pages.map(it => askOfPage(asked.program, it, calls.judge));
  const lines = answers.flatMap(it => {
    const rows = rowsOf(it), title = asked.page.paint(plain(nameOf(it.page, asked.site)), 'bold');
    return rows.length === 0 ? [] : [...answers.length > 1 ? [title] : [], ...tableOf(rows, asked), ''];
  });
  return answeredBeside(answers, asked, lines);
};

/**
 * The answer with what browsers say beside it.
 * @param {PageAnswer<Verdict>[]} answers
 * @param {Asked} asked
 * @param {string[]} lines
 */
const answeredBeside = (answers, asked, lines) => {
  const differ = differences(answers, asked), { beside, said } = browserOf(answers, asked.site);
  const told = toldOf(answers, asked, [...lines, ...differ.lines, ...pagesTable(answers, asked)]);
  const browser = beside.filter(it => !it.isSame).map(({ violation, piece }) =>
    ({ ...violation, request: piece?.request ?? null }));
  const pages = plainAnswer(answers, asked.site.events.length > 0 ? said : undefined);
  const isAlone = browser.some(it => it.disposition !== 'report');
  return {
    answer: { pages, browserAlone: browser },
    told: {
      ...told, warnings: [...differ.warnings, ...told.warnings],
      mood: isAlone ? 'red' : browser.length > 0 && told.mood === 'green' ? 'yellow' : told.mood,
      status: isAlone ? 1 : told.status,
    },
  };
};

/**
 * @param {import('../sites.js').Judged<Reason>} judged
 * @param {Asked} asked
 */
const reasonLines = ({ piece, answer: { items, policies } }, { page }) => {
  const said = answerOf(items[0]);
  const [first, ...more] = wrapped(`${said.text}: ${textOf(piece)}`, page, '  ');
  const grounds = policies.map(it => `    ${groundText(it, policies.length > 1)}`);
  return [
    first.replace(said.text, it => page.paint(it, said.colour)), ...more,
    ...grounds.flatMap(it => wrapped(it, page, '      ')),
  ];
};

/** @type {OfSite} */
export const whySite = asked => {
  const answers = asked.site.pages.map(it => askOfPage(asked.program, it, calls.why));
  const lines = answers.flatMap(it => {
    const all = it.judged.filter(of => of.answer.items.length > 0);
    const kept = asked.options.all ? all : all.slice(0, MANY), left = all.length - kept.length;
    const title = asked.page.paint(plain(nameOf(it.page, asked.site)), 'bold');
    return all.length === 0 ? [] : [
      ...answers.length > 1 ? [title] : [], ...kept.flatMap(of => reasonLines(of, asked)),
      ...left === 0 ? [] : [`And ${counted(left, 'request')} more: --all shows each.`], '',
    ];
  });
  return answeredBeside(answers, asked, lines);
};

/** @type {OfSite} */
export const reportSite = asked => {
  const { program, site } = asked, reports = /** @type {calls.Report[]} */ ([]);
  const counts = /** @type {Record<string, number>} */ ({});
  for (const { origin, policy, pieces, text } of site.pages.flatMap(questionsOf)) {
    const requests = text ?? JSON.stringify(pieces.map(it => it.request));
    const one = calls.report(program, { origin, headers: policy, requests });
    reports.push(...one.reports);
    for (const [name, count] of Object.entries(one.counts)) counts[name] = (counts[name] ?? 0) + count;
  }
  const answer = { reports, counts }, common = commonOf(site);
  return { answer, told: { ...common, ...toldReports(answer, asked, common.covers) } };
};

/** @type {OfSite} */
export const learnSite = asked => {
  const { program, site } = asked, pages = site.pages.filter(({ role = 'page' }) => role === 'page');
  const [origin, ...others] = [...new Set(pages.map(it => it.origin))];
  if (others.length > 0) {
    const all = [origin, ...others].join(', ');
    const problem = `pages of several origins, of which each has a policy of its own: ${all}`;
    throw new Refusal(USAGE, { problem, hint: 'Give the files of one.' });
  }
  const requests = pages.flatMap(it => it.pieces).map(it => it.request);
  const answer = calls.learn(program, { origin, requests: /** @type {any} */ (requests) });
  const apart = site.pages.filter(it => !pages.includes(it));
  const common = commonOf(site), unseen = [
    ...apart.length === 0 ? []
      : [`what ${apart.length} frames and workers load: left out, since each has a policy of its own`],
    ...common.unseen,
  ];
  const told = tellLearnt(answer, { origin, names: {} });
  const sentence = 'This policy allows the loads that stand in these files, and no others.';
  return { answer, told: { ...common, ...told, sentence, unseen } };
};
