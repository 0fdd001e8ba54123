/** What a policy doesn't allow, by directive and host: each group with its reason and what to do. */
import { describe, describeText, hostOf } from '../js/describe.js';
import { directiveText } from '../js/policies.js';
import { ALLOWING, code, groupedBy, ordinal } from './answer.js';
import { policiesIn } from './reading.js';
import { say } from './sentences.js';

/**
 * @typedef {import('../js/index.js').Program} Program
 * @typedef {import('../js/index.js').Reason} Reason
 * @typedef {import('../js/sites.js').PageAnswer<Reason>} PageAnswer
 * @typedef {import('../js/readers/site.js').SitePage} SitePage
 * @typedef {import('../js/readers/html.js').Piece} Piece
 * @typedef {import('./answer.js').Group} Group
 * @typedef {import('./answer.js').Text} Text
 * @typedef {{ page: SitePage, piece: Piece, answer: Reason }} Judged
 * @typedef {Judged & { allowing?: import('./allow.js').Allowing }} Row
 */

const LENGTH = 80;

/** @param {string} text */
export const short = text => {
  const line = text.replace(/\s+/g, ' ').trim();
  return line.length > LENGTH ? `${line.slice(0, LENGTH - 1)}…` : line;
};

/** @param {SitePage} page its file, or its address in a recording */
export const nameOf = ({ url, file }) => url === '' || file !== '' && !/\.har$/i.test(file) ? file : url;

/** @param {Judged} row where it stands */
export const placeOf = ({ page, piece: { line, column } }) => {
  const at = line === undefined ? '' : `, line ${line}${column === undefined ? '' : `:${column}`}`;
  return `${nameOf(page)}${at}`;
};

/** @param {Piece} piece as `image cdn.example.net` and `event handler` */
const whatOf = ({ request }) => {
  const { what, of } = describe(request), { kind } = request;
  return `${what} ${kind === 'capability' ? of : kind === 'inline' ? '' : hostOf(request)}`.trim();
};

/** @param {Piece} piece the begin of its code, or what it asks for */
export const sampleOf = ({ request }) => {
  const { kind, source, url, urls } = request;
  if (kind === 'inline' && source !== undefined) return short(source);
  const first = urls?.[0] ?? url;
  return typeof first === 'string' ? short(first) : short(describeText(request));
};

/** @param {Piece} piece what it is, and its sample where that says more */
const saidOf = piece => {
  const said = short(piece.said || describe(piece.request).what), sample = sampleOf(piece);
  return said.includes(sample) ? { said, sample: '' } : { said, sample };
};

/** @param {Row} row the item that is shown of it: what blocks it, or else what reports it */
const itemOf = ({ answer: { items } }) => items.find(it => it.disposition === 'enforce') ?? items[0];

const MOODS = /** @type {const} */ ({ 'blocked': 'bad', 'may be blocked': 'bad', 'reported': 'warn' });

/**
 * @param {Row} row
 * @returns {keyof typeof MOODS}
 */
const badgeOf = ({ piece, answer }) =>
  !answer.blocked ? 'reported' : piece.possible ? 'may be blocked' : 'blocked';

/**
 * The names of the directives that don't allow it, with their policies where a page has several.
 * @param {Row} row
 */
const directivesOf = row => {
  const { answer: { items, policies } } = row, shown = itemOf(row).disposition;
  const names = items.filter(it => it.disposition === shown).map(({ governing, policy }) =>
    policies.length > 1 ? `${governing} of the ${ordinal(policy)} policy` : governing);
  return [...new Set(names)].join(' and ');
};

// What the word behind a token means
const BUT = /** @type {Record<string, string>} */ ({
  'scheme': 'the scheme is another', 'port': 'the port is another',
  'path': 'the path is another: only one that ends in / stands for all below it',
  'suffix': 'the star stands for at least one label',
  'strict-dynamic': "beside 'strict-dynamic' no URL counts",
  'nonce': 'a nonce in the directive makes it void', 'hash': 'a hash in the directive makes it void',
  'unsafe-hashes': "it needs 'unsafe-hashes' beside it",
});

/**
 * The directive as it stands in the policy, and what nearly allows the row.
 * @param {Program} program
 * @param {Row} row
 * @returns {Text[]}
 */
const becauseOf = (program, row) => {
  const { page, piece, answer: { policies } } = row, { policy, governing, effective } = itemOf(row);
  const { directives } = policiesIn(program, [...page.lines, ...piece.meta])[policy];
  const directive = directives.find(it => it.name === governing);
  const text = directive === undefined ? governing : directiveText(directive);
  const near = policies.find(it => it.policy === policy)?.near ?? [];
  return [
    say(governing === 'default-src' ? 'standsIn' : 'decides', short(text), effective),
    ...near.map(it => say('near', it.token, BUT[it.butFor] ?? `${it.butFor} keeps it from that`)),
  ];
};

const MOST_SOURCES = 3;

/**
 * What to add so that the rows of a group are allowed, and what else can be done.
 * @param {Row[]} rows
 */
const todoOf = rows => {
  const all = rows.flatMap(it => it.allowing === undefined ? [] : [it.allowing]);
  const sources = [...new Set(all.flatMap(it => it.sources))], more = sources.length - MOST_SOURCES;
  const adding = sources.length === 0 ? []
    : [say('toAllow', sources.slice(0, MOST_SOURCES).join(' '), all[0].directive, Math.max(0, more))];
  const how = adding.length === 0 ? 'instead' : all.some(it => it.isBetter) ? 'better' : 'orElse';
  const advice = [...new Set(all.flatMap(it => it.advice ?? []))].map(it => say(how, it));
  return { todo: [...adding, ...advice], ...more > 0 && { copy: sources.join(' ') } };
};

/** @param {Row} row */
const cellsOf = row => {
  const { said, sample } = saidOf(row.piece);
  return [said, placeOf(row), code(sample), code((row.allowing?.sources ?? []).join(' '))];
};

/** @param {Row} row what the rows of a group have in common */
const keyOf = row => {
  const near = row.answer.policies.flatMap(of => of.near.map(to => to.butFor)).join();
  const { advice, directive } = row.allowing ?? {};
  return [badgeOf(row), directivesOf(row), whatOf(row.piece), near, advice, directive].join('\n');
};

/**
 * @param {Program} program
 * @param {Row[]} rows
 * @returns {Group}
 */
const groupOf = (program, rows) => {
  const [first] = rows, badge = badgeOf(first);
  return {
    mood: MOODS[badge], badge, directive: directivesOf(first), of: whatOf(first.piece), count: rows.length,
    because: becauseOf(program, first), ...todoOf(rows), columns: ['What', 'Where', 'Which', ALLOWING],
    rows: rows.map(cellsOf),
  };
};

const ORDER = ['bad', 'warn'];

/**
 * Rows as groups, those that are blocked and frequent first.
 * @param {Program} program
 * @param {Row[]} rows
 */
export const groupsOf = (program, rows) => groupedBy(rows, keyOf).map(it => groupOf(program, it))
  .sort((a, b) => ORDER.indexOf(a.mood) - ORDER.indexOf(b.mood) || b.count - a.count);

/** @param {Row} row the directives and words that allow it */
const allowedBy = ({ answer: { policies } }) => {
  const words = policies.filter(it => it.does === 'allows' && it.directive !== '-')
    .map(it => it.token === undefined ? it.directive : `${it.directive} ${it.token}`);
  return [...new Set(words)].join(' and ');
};

/**
 * What is allowed, by host and the word that allows it.
 * @param {Row[]} rows
 */
export const allowedRows = rows => groupedBy(rows, it => [whatOf(it.piece), allowedBy(it)].join('\n'))
  .sort((a, b) => b.length - a.length).map(all => {
    const by = allowedBy(all[0]);
    return [String(all.length), whatOf(all[0].piece), by === '' ? 'no directive decides this' : code(by)];
  });
