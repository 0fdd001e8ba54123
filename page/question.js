/** The questions: what each asks of the engine, and what it needs before it can be asked. */
import { attacker } from './attacker.js';
import { blocked } from './blocked.js';
import { Given, headersIn } from './given.js';
import { make } from './make.js';
import { framed } from './more/framed.js';
import { proof } from './more/proof.js';
import { required } from './more/required.js';
import { shorter } from './more/shorter.js';
import { headersText } from './reading.js';
import { readLogs, reports } from './reports.js';
import { say } from './sentences.js';
import { weaker } from './weaker.js';

/**
 * @typedef {import('../js/index.js').Program} Program
 * @typedef {import('./answer.js').Answer} Answer
 * @typedef {import('./answer.js').Text} Text
 * @typedef {import('./reading.js').Reading} Reading
 * @typedef {(done: number, all: number) => void} Tell
 * @typedef {{ form: 'hosts' | 'strict' | 'addition', unsafeHashes: boolean, proof: string, required: string,
 *   embedder: string, subject: number }} Choices
 * @typedef {{ program: Program, given: Given, choices: Choices, tell: Tell }} Asked
 */

/**
 * @param {Text} sentence what has to be given first
 * @returns {Answer}
 */
const lacking = sentence => ({ mood: 'plain', sentence, more: [], blocks: [], unseen: [], data: null });

/** @param {Asked} asked whose headers are asked about */
const subjectOf = ({ given: { subjects }, choices: { subject } }) => subjects[subject] ?? subjects[0];

/**
 * @param {string} text
 * @param {string} name
 * @returns {Reading}
 */
const readingOf = (text, name) => {
  const { lines, left } = headersIn(text);
  return { name, lines, left };
};

/**
 * The header lines of a text as they stand, where they do; else those that were read.
 * @param {string} text
 * @param {string[]} lines
 */
const plainLines = (text, lines) => {
  const rows = text.split(/\r?\n/).filter(it => /^[\w-]+:/.test(it));
  return headersText(rows.length === 0 ? lines : rows);
};

/** @param {Asked} asked old and new headers, or what is lacking of them */
const pairOf = asked => {
  const { origin, reading } = subjectOf(asked), { newer } = asked.given;
  if (reading.lines.length === 0) return { lacks: lacking(say('giveHeaders')) };
  if (newer.trim() === '') return { lacks: lacking(say('giveNewer')) };
  const old = { ...reading, name: 'the old headers' };
  return { pair: { origin, old, new: readingOf(newer, 'the new headers') } };
};

/** @param {Asked} asked */
const asMake = async ({ program, given, choices: { form, unsafeHashes }, tell }) => {
  const { lines, logs, site } = given;
  if (site.pages.length === 0 && logs.length === 0) return lacking(say('nothingToMake'));
  const { tally, left } = await readLogs(logs, tell), ended = tally.ended();
  const all = [...site.left, ...[...left, ...ended.left].map(said => ({ said }))];
  const pages = site.pages, wish = { form, unsafeHashes, ...lines && { headers: lines } };
  return make(program, { ...wish, pages, reports: ended.groups, left: all });
};

/** @type {Record<string, (asked: Asked) => Answer | Promise<Answer>>} */
const QUESTIONS = {
  blocked: ({ program, given, tell }) => {
    const { site, origin, headers } = given;
    return blocked(program, { site, origin, reading: readingOf(headers, 'the headers') }, tell);
  },
  attacker: asked => attacker(asked.program, subjectOf(asked)),
  weaker: asked => {
    const { lacks, pair } = pairOf(asked);
    return lacks ?? weaker(asked.program, pair);
  },
  make: asMake,
  reports: ({ program, given, tell }) => given.logs.length === 0 ? lacking(say('giveReports'))
    : reports(program, { logs: given.logs, reading: readingOf(given.headers, 'the headers') }, tell),
  framed: asked => framed(asked.program, {
    ...subjectOf(asked), embedder: asked.choices.embedder, response: asked.given.headers,
  }),
  shorter: asked => subjectOf(asked).reading.lines.length === 0 ? lacking(say('giveHeaders'))
    : shorter(asked.program, subjectOf(asked)),
  proof: asked => {
    const { lacks, pair } = pairOf(asked), text = asked.choices.proof;
    if (lacks !== undefined) return lacks;
    return text.trim() === '' ? lacking(say('giveProof')) : proof(asked.program, { ...pair, proof: text });
  },
  required: asked => {
    const { origin, reading } = subjectOf(asked), { required: text, embedder } = asked.choices;
    const response = plainLines(asked.given.headers, reading.lines);
    const policy = readingOf(text, 'the required policy');
    return required(asked.program, { origin, embedder, required: policy, reading, response });
  },
};

/**
 * The answer to a question.
 * @param {Program} program
 * @param {{ question: string, raw: import('./given.js').Raw, choices: Choices }} asked
 * @param {Tell} tell
 */
export const answerTo = (program, { question, raw, choices }, tell) =>
  QUESTIONS[question]({ program, given: new Given(raw), choices, tell });
