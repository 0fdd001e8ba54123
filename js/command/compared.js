/** What is said of headers, alone and beside others: compare, differ, check, embed, tidy, learn, order. */
import { describeText } from '../describe.js';
import { blocksNothing } from '../index.js';
import { textOfLine } from '../places.js';
import { counted, ordinal } from './judged.js';
import { plain, table } from './page.js';

/**
 * @typedef {import('./words.js').Asked} Asked
 * @typedef {import('./words.js').Told} Told
 * @typedef {import('../answers.js').Shown} Shown
 * @typedef {{ directive: string } & Shown} Difference
 */

/** The exit code of a yes that would mean nothing, since the old headers block nothing. */
export const MEANS_NOTHING = 15;

const UNCOVERED = 'Not compared: Trusted Types, upgrade-insecure-requests, report-only policies.';

const red = (/** @type {string} */ text) => ({ text, colour: /** @type {const} */ ('red') });

/** @param {Shown} shown */
const textOf = ({ request, url }) => {
  const text = describeText(request);
  return url === null || text.includes(url) ? text : `${text} (${url})`;
};

/** @param {Shown} shown */
const byOf = ({ items }) => items.filter(it => it.disposition === 'enforce')
  .map(({ governing, policy }) => governing + (policy > 0 ? `, ${ordinal(policy)} policy` : '')).join('; ');

/**
 * What is to be known beside the rows: that nonces differ.
 * @param {Difference[]} differences
 */
const warningsOf = differences => differences.some(({ request }) => 'nonce' in request && request.nonce)
  ? ['The nonces differ: guidecerise weaker takes them for those of two responses.'] : [];

/**
 * @param {Difference[]} differences
 * @param {string} shown what of all that is weaker is shown
 * @param {Asked} asked
 * @returns {Told}
 */
const tellWeaker = (differences, shown, { names, lines: { new: line }, page, origin }) => {
  const rows = differences.map(it => [red(it.directive), textOf(it), byOf(it)]);
  return {
    lines: [...table(['weaker', 'now allowed', 'blocked before by'], rows, page), ''],
    mood: 'red', sentence: `Weaker: ${names.new} allows what ${names.old} blocks.`,
    warnings: warningsOf(differences), covers: `${shown} On a page of ${origin}. ${UNCOVERED}`, status: 1,
    findings: () => differences.map(it => ({
      rule: it.directive, level: 'error', file: names.new, line,
      message: `${it.directive} is weaker: ${plain(textOf(it))} is now allowed, which ${names.old} blocks`,
    })),
  };
};

/**
 * What is told of a yes where the headers that had to be met block nothing, so that it would mean nothing.
 * @param {Asked} asked
 * @param {string} member the member of the call that has these headers
 * @returns {Told | undefined}
 */
const tellNothing = ({ program, origin, names, contents }, member) => {
  if (!blocksNothing(program, { origin, headers: contents[member] })) return undefined;
  return {
    lines: [], findings: () => [], mood: 'yellow', status: MEANS_NOTHING,
    sentence: `No answer: ${names[member]} blocks nothing, so nothing is weaker than it.`,
    warnings: [`See that ${names[member]} has a line Content-Security-Policy: and is spelt right.`],
    covers: `On a page of ${origin}.`,
  };
};

/**
 * @param {string} proof what is said of the proof
 * @param {Asked} asked
 * @returns {Told}
 */
const tellNotWeaker = (proof, asked) => {
  const { origin, names } = asked;
  return tellNothing(asked, 'old') ?? {
    lines: [], findings: () => [], mood: 'green', status: 0,
    sentence: `Not weaker: ${names.new} blocks all that ${names.old} blocks, whatever is requested.${proof}`,
    warnings: [], covers: `On a page of ${origin}. ${UNCOVERED}`,
  };
};

/**
 * @param {import('../index.js').Comparison} answer
 * @param {Asked} asked
 */
export const tellComparison = (answer, asked) => {
  if (!answer.weaker) {
    const lines = counted(answer.proof.split('\n').length - 1, 'line');
    return tellNotWeaker(` The proof has ${lines}: --save-proof keeps it.`, asked);
  }
  const [{ effective }] = answer.items;
  const shown = 'One request is shown; differ shows one for each directive.';
  return tellWeaker([{ directive: effective, ...answer }], shown, asked);
};

/**
 * @param {Difference[]} differences
 * @param {Asked} asked
 */
export const tellDifferences = (differences, asked) => differences.length === 0 ? tellNotWeaker('', asked)
  : tellWeaker(differences, 'One request is shown for each directive; there may be more.', asked);

/**
 * @param {import('../index.js').Check} answer
 * @param {Asked} asked
 * @returns {Told}
 */
export const tellCheck = (answer, asked) => {
  const { names, origin, text } = asked;
  const told = {
    lines: [], warnings: [], findings: () => [],
    covers: `For these two files, in this order, on a page of ${origin}. ${UNCOVERED}`,
  };
  if (answer.accepted) {
    const sentence = `Accepted: ${names.new} blocks all that ${names.old} blocks, whatever is requested.`;
    return tellNothing(asked, 'old') ?? { ...told, mood: 'green', status: 0, sentence };
  }
  const broken = `${names.proof}:${answer.line} breaks a rule: ${textOfLine(text('proof'), answer.line)}`;
  return { ...told, mood: 'red', status: 1, sentence: `Rejected: ${broken}` };
};

/**
 * @param {import('../index.js').Embedding} answer
 * @param {Asked} asked
 * @returns {Told}
 */
export const tellEmbedding = (answer, asked) => {
  const { names: { response, required }, origin, embedder } = asked;
  const covers = `A response of ${origin}, framed by ${embedder}.`;
  const told = { lines: [], warnings: [], findings: () => [], covers };
  if (answer.answer === 'added') {
    const sentence = `Show it, and enforce this on it too, as it lets you: ${answer.policy}`;
    return { ...told, mood: 'yellow', status: 0, sentence };
  }
  if (answer.answer === 'served') {
    const sentence = `Show it: ${response} blocks all that ${required} blocks.`;
    return tellNothing(asked, 'required') ?? { ...told, mood: 'green', status: 0, sentence };
  }
  const sentence = `Don't show it: ${response} allows what ${required} blocks, as ${textOf(answer)}`;
  return { ...told, mood: 'red', status: 1, sentence };
};

/**
 * @param {import('../index.js').Tidied} answer
 * @param {Asked} asked
 * @returns {Told}
 */
export const tellTidied = ({ headers, needed }, { names, origin, page, options }) => {
  const rows = needed.map(({ directive, token, how, request }) =>
    [directive, token, how === 'with' ? 'allows' : 'blocks', describeText(request)]);
  const reasons = options.all ? ['', ...table(['directive', 'word', 'it', 'as'], rows, page)] : [];
  return {
    lines: [...headers.trimEnd().split('\n').map(plain), ...reasons, ''],
    mood: 'green',
    sentence: `These headers allow exactly what ${names.headers} allows.`
      + ' No source of a policy that is enforced can be taken out.',
    warnings: ['Before you send them: old browsers that know no nonces or no \'strict-dynamic\' need'
      + ' \'unsafe-inline\' and https: beside these. Where you have such visitors, put them back.'],
    covers: `On a page of ${origin}. ${options.all ? '' : '--all shows why each source stays.'}`.trimEnd(),
    status: 0, findings: () => [],
  };
};

/**
 * @param {import('../index.js').Learnt} answer
 * @param {Pick<Asked, 'names' | 'origin'>} asked
 * @returns {Told}
 */
export const tellLearnt = ({ headers, notLearnt }, { names, origin }) => ({
  lines: [plain(headers.trimEnd()), ''],
  mood: 'yellow',
  sentence: `This policy allows the loads that ${names.requests} names, and no others.`,
  warnings: [
    ...notLearnt.map(({ request, hop }) =>
      `Not allowed: request ${request}. No source can name the host of its ${ordinal(hop - 1)} URL.`),
    'Whatever was loaded is allowed, an attacker\'s script too: read the policy before you send it.',
  ],
  covers: `On a page of ${origin}. Not looked at: inline code, eval, forms, base URLs, framing.`,
  status: 0, findings: () => [],
});

/**
 * @param {import('../index.js').Relation[]} relations
 * @param {Asked} asked
 * @returns {Told}
 */
export const tellRelations = (relations, { names, origin, page }) => {
  /** @param {number} list */
  const name = list => names[`list ${list}`];
  const rows = relations.map(it => [name(it.first), name(it.second),
    it.weaker ? red('weaker') : { text: 'not weaker', colour: /** @type {const} */ ('green') },
    it.weaker ? describeText(it.request) : '']);
  const weaker = new Set(relations.filter(it => it.weaker).map(it => it.first));
  const strictest = [...new Set(relations.map(it => it.first))].filter(it => !weaker.has(it)).map(name);
  return {
    lines: [...table(['headers', 'beside', 'answer', 'it allows'], rows, page), ''],
    mood: strictest.length > 0 ? 'green' : 'yellow',
    sentence: strictest.length === 0 ? 'None is the strictest: each allows what another blocks.'
      : `Strictest: ${strictest.join(' and ')}. What the others block is blocked there too.`,
    warnings: [], covers: `On a page of ${origin}. ${UNCOVERED}`, status: 0, findings: () => [],
  };
};
