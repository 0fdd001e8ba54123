/** The word `propose`: a policy for what stands in files, and what of it is still blocked. */
import { propose } from '../propose.js';
import { Refusal } from '../refusal.js';
import { givenIn } from './given.js';
import { counted } from './judged.js';
import { plain, table, wrapped } from './page.js';

/**
 * @typedef {import('../propose.js').Proposal} Proposal
 * @typedef {import('../propose.js').Row} Row
 * @typedef {import('../propose.js').Count} Count
 * @typedef {import('./words.js').Told} Told
 * @typedef {import('./page.js').Page} Page
 * @typedef {import('./line.js').Line} Line
 * @typedef {{ isWhole: boolean, page: Page }} Shown
 */

const USAGE = 2;
const MEANS_LITTLE = 15; // nothing is blocked, but what was given has gaps
const MANY = 10; // places below one piece of advice, if the whole isn't asked for
const FORMS = ['hosts', 'strict', 'addition'], INLINE = ['nonces', 'hashes'];

export const OPTIONS = /** @type {const} */ ({
  form: { type: 'string', default: 'hosts' }, inline: { type: 'string' },
  'unsafe-hashes': { type: 'boolean', default: false },
});

/**
 * One of the words that an option takes.
 * @template T
 * @param {string} name
 * @param {T | undefined} value
 * @param {readonly string[]} words
 */
const oneOf = (name, value, words) => {
  if (value === undefined || words.includes(String(value))) return value;
  const hint = `Write one of ${words.join(', ')}.`;
  throw new Refusal(USAGE, { problem: `--${name} is ${JSON.stringify(value)}`, hint });
};

/** @param {Count} count */
const number = ({ requests, reports }) => requests + reports;

/**
 * As `101 requests and 800 reports`.
 * @param {Count} count
 */
const text = ({ requests, reports }) => [
  ...requests > 0 || reports === 0 ? [counted(requests, 'request')] : [],
  ...reports > 0 ? [counted(reports, 'report')] : [],
].join(' and ');

/** @param {Row} row */
const placeOf = ({ file, page, line, column, isReport, count }) => {
  const at = line === undefined ? '' : `:${line}${column === undefined ? '' : `:${column}`}`;
  return isReport ? counted(count, 'report') : `${file ?? page}${at}`;
};

/**
 * A line for each row: where it stands, and what it is.
 * @param {readonly Row[]} rows
 * @param {Shown} shown
 */
const placeLines = (rows, { isWhole, page }) => {
  const kept = isWhole ? rows : rows.slice(0, MANY), left = rows.length - kept.length;
  const width = Math.max(...kept.map(it => placeOf(it).length));
  const lines = kept.flatMap(it => [
    `${placeOf(it).padEnd(width)}  ${it.said}${it.isPossible ? ' (perhaps)' : ''}`,
    ...isWhole && it.hash !== undefined ? [`  ${it.hash}`] : [],
  ]);
  return [...lines, ...left > 0 ? [`and ${left} more: --all shows each.`] : []]
    .flatMap(it => wrapped(`    ${it}`, page, '      '));
};

/**
 * Rows below the advice that they have in common, the most frequent first.
 * @param {readonly Row[]} rows
 * @param {Shown} shown
 */
const adviceLines = (rows, shown) => {
  const groups = /** @type {Map<string, Row[]>} */ (new Map());
  for (const it of rows) groups.set(it.advice, [...groups.get(it.advice) ?? [], it]);
  return [...groups].sort((a, b) => b[1].length - a[1].length)
    .flatMap(([advice, all]) => [...wrapped(`  ${advice}:`, shown.page, '  '), ...placeLines(all, shown)]);
};

/**
 * @param {Proposal['additions']} additions
 * @param {Page} page
 */
const additionLines = (additions, page) => {
  const rows = additions.map(({ count, directive, sources, isTaken }) =>
    [String(count), directive, sources.join(' '), isTaken ? 'added' : 'left out']);
  return rows.length === 0 ? [] : [...table(['ends', 'directive', 'sources', ''], rows, page), ''];
};

/** @param {number} count */
const are = count => count > 1 ? 'are' : 'is';

/** @param {Proposal} proposal */
const sentenceOf = ({ form, asked, before, after, nonces, additions }) => {
  const left = number(after), then = nonces.length > 0 ? ' then' : '';
  const first = nonces.length === 0 ? '' : `${counted(nonces.length, 'element')} will need the nonce. `;
  const count = left === 0 ? 'None' : left.toLocaleString('en');
  const still = `${count} of ${text(asked)} ${are(left)}${then} still blocked.`;
  if (form !== 'addition' || before === null) return `${first}${still}`;
  const taken = additions.filter(it => it.isTaken).length, rare = additions.length - taken;
  const noise = rare === 0 ? '' : ` ${counted(rare, 'source')} may be noise, and ${are(rare)} left out.`;
  const all = counted(number(before), 'violation');
  return `${counted(taken, 'new source')} would end ${number(before) - left} of ${all}.${noise} ${still}`;
};

const SHORTER = 'Shorter, and the same in browsers of today. Old ones that know no nonces or no '
  + "'strict-dynamic' need what it lacks:";
const HASHES = '--unsafe-hashes allows handlers, javascript: URLs and style attributes by their hashes in '
  + 'place of that.';

const ATTACK = 'With this policy an attacker who may write markup into a page could still do this:';

/**
 * @param {NonNullable<Proposal['audit']>} audit
 * @param {Shown} shown
 */
const auditLines = ({ rows, known }, { isWhole, page }) => {
  const said = [
    ...rows.filter(it => it.can !== 'no').map(it => it.sentence),
    ...known.map(it => `${it.token ?? it.directive}: ${it.said}`),
  ];
  const all = [...new Set(said)], kept = isWhole ? all : all.slice(0, MANY), left = all.length - kept.length;
  return [...kept, ...left > 0 ? [`and ${left} more: --all shows each.`] : []]
    .flatMap(it => wrapped(`  ${it}`, page, '    '));
};

/**
 * @param {Proposal} proposal
 * @param {Shown} shown
 */
const linesOf = ({ form, headers, shorter, additions, nonces, blocked, audit }, shown) => {
  const { page } = shown, attributes = blocked.some(it => it.hash !== undefined);
  const block = (/** @type {string} */ head, /** @type {string[]} */ lines) =>
    lines.length === 0 ? [] : [...wrapped(head, page).map(it => page.paint(it, 'bold')), ...lines, ''];
  const headerLines = (/** @type {string} */ it) => it.trimEnd().split('\n').map(plain);
  return [
    ...headerLines(headers), '',
    ...block(SHORTER, shorter === null ? [] : headerLines(shorter)),
    ...form === 'addition' ? additionLines(additions, page) : [],
    ...block('These elements have to get the nonce:', placeLines(nonces, shown)),
    ...block('Still blocked. For each of them:', adviceLines(blocked, shown)),
    ...attributes ? [...wrapped(HASHES, page), ''] : [],
    ...audit === null ? [] : block(ATTACK, auditLines(audit, shown)),
  ];
};

/**
 * What was left out, with its places; what is said of many places is told once.
 * @param {readonly import('./given.js').Said[]} left
 */
const leftTexts = left => {
  const places = /** @type {Map<string, string[]>} */ (new Map());
  for (const { file, line, said } of left) {
    const place = file === undefined ? [] : [line === undefined ? file : `${file}:${line}`];
    places.set(said, [...places.get(said) ?? [], ...place]);
  }
  return [...places].map(([said, all]) => {
    if (all.length === 0) return said;
    return `${all.length > 3 ? `${all.length} places` : all.join(', ')}: ${said}`;
  });
};

/**
 * What is told of a proposal.
 * @param {Proposal} proposal
 * @param {{ pages: readonly import('../propose.js').GivenPage[], left: import('./given.js').Said[] }} given
 * @param {Shown} shown
 * @returns {Told}
 */
const toldOf = (proposal, { pages, left }, shown) => {
  const { asked, after, nonces, gaps, cautions, kept, unseen } = proposal;
  const isBlocked = number(after) + nonces.length > 0;
  const count = pages.filter(it => (it.role ?? 'page') === 'page').length;
  const of = count > 0 ? ` of ${counted(count, 'page')}` : '';
  return {
    ...gaps.length > 0 ? { first: gaps.join(' ') } : {},
    lines: linesOf(proposal, shown), mood: isBlocked ? 'red' : 'yellow', sentence: sentenceOf(proposal),
    warnings: [
      ...kept.length > 0 ? [`Kept from the present policy: ${kept.join('; ')}.`] : [], ...cautions,
    ],
    covers: `Looked at: ${text(asked)}${of}.`, unseen: [...leftTexts([...left, ...proposal.left]), ...unseen],
    status: isBlocked ? 1 : gaps.length > 0 ? MEANS_LITTLE : 0, findings: () => [],
  };
};

/**
 * Proposes a policy for what stands in files.
 * @param {object} given
 * @param {import('../index.js').Program} given.program
 * @param {ReturnType<typeof import('./sources.js').sourcesOf>} given.sources
 * @param {import('./headers.js').HeaderFile} [given.headers] the present policy
 * @param {import('./line.js').Options} given.options
 * @param {Page} given.page
 */
export const runPropose = async ({ program, sources, headers, options, page }) => {
  const { form, inline, 'unsafe-hashes': unsafeHashes, all, url } = /** @type {any} */ (options);
  oneOf('form', form, FORMS);
  oneOf('inline', inline, INLINE);
  const given = await givenIn(sources, url), { pages, reports } = given;
  const present = { headers: headers?.lines }, wish = { form, inline, unsafeHashes };
  const answer = await propose(program, { ...wish, ...present, pages, reports });
  return { answer, told: toldOf(answer, given, { isWhole: all, page }), remarks: headers?.remarks ?? [] };
};
