/** The answers that are shown: one for each question, grey where something was changed since. */
import { textOf } from './answer.js';
import { NoAnswer, Stopped } from './asking.js';
import { asJson, asMarkdown, asText } from './copy.js';
import { by, told } from './element.js';
import { say } from './sentences.js';
import { shown } from './show.js';
import { choices, question, raw, state } from './state.js';

/**
 * @typedef {import('./answer.js').Answer} Answer
 * @typedef {import('./asking.js').Asking} Asking
 */

/** @typedef {{ revision: number, answer: Answer, element: HTMLElement }} Kept */
const answers = /** @type {Map<string, Kept>} */ (new Map());
let running = 0, count = 0;

const SOON = 300; // milliseconds

/** Shows the answer of the question at hand. */
export const showAnswer = () => {
  const found = answers.get(question()), box = by('answers');
  box.replaceChildren(...found === undefined ? [] : [found.element]);
  if (found === undefined) return;
  const isStale = found.revision !== state.revision;
  found.element.classList.toggle('stale', isStale);
  found.element.querySelector('.stale-note')?.remove();
  if (isStale) found.element.prepend(told('p', say('stale'), { class: 'stale-note' }));
};

/** Whether the answer of the question at hand is of what stands in the page. */
export const isFresh = () => answers.get(question())?.revision === state.revision;

/** Something was changed. */
export const changed = () => {
  state.revision += 1;
  showAnswer();
};

/** @param {string} text what a screen reader is told */
export const saidAloud = text => { by('said').textContent = text; };

/**
 * @param {string} name
 * @param {Answer} answer
 * @param {number} revision the one that was asked about
 */
const keep = (name, answer, revision) => {
  answers.set(name, { revision, answer, element: shown(answer) });
  saidAloud(textOf(answer.sentence));
  showAnswer();
  document.body.dataset.answered = String(count += 1);
  if (count === 1) performance.mark('first-answer');
};

const NAMES = /** @type {Record<string, string>} */ ({
  headers: 'the headers', new: 'the new headers', old: 'the old headers', required: 'the required policy',
  response: 'the headers', requests: 'the requests', proof: 'the proof',
});

/**
 * @param {unknown} error
 * @returns {Answer}
 */
const withoutAnswer = error => {
  const told = { more: [], blocks: [], unseen: [], data: null };
  if (error instanceof Stopped) return { ...told, mood: 'plain', sentence: say('stopped') };
  if (!(error instanceof NoAnswer)) throw error;
  const { file, line, problem, hint = '' } = error.refused;
  const places = [file === undefined ? '' : NAMES[file] ?? file, line === undefined ? '' : `line ${line}`];
  const text = [places.filter(it => it !== '').join(', '), problem].filter(it => it !== '').join(': ');
  const sentence = say('refused', text[0].toUpperCase() + text.slice(1));
  return { ...told, mood: 'warn', sentence, more: hint === '' ? [] : hint.split('\n') };
};

/**
 * @param {number} done
 * @param {number} of
 */
const progress = (done, of) => {
  const bar = by('busy-bar');
  bar.max = of;
  bar.value = Math.min(done, of);
};

/**
 * Shows that something is under way, with the button that stops it, where it takes long.
 * @template T
 * @param {Promise<T>} work
 */
export const busyUntil = async work => {
  running += 1;
  by('busy-bar').removeAttribute('value');
  const slow = setTimeout(() => { by('busy').hidden = false; }, SOON);
  try {
    return await work;
  } finally {
    clearTimeout(slow);
    running -= 1;
    if (running === 0) by('busy').hidden = true;
  }
};

/**
 * Asks the question at hand.
 * @param {Asking} asking
 */
export const ask = async asking => {
  const name = question(), { revision } = state, given = { question: name, raw: raw(), choices: choices() };
  try {
    keep(name, await busyUntil(asking.ask('answer', given, progress)), revision);
  } catch (error) {
    keep(name, withoutAnswer(error), revision);
  }
};

/**
 * @param {string} text
 * @param {HTMLElement} button beside which it is said
 */
export const copy = async (text, button) => {
  await navigator.clipboard.writeText(text);
  button.parentElement?.querySelector('[data-says=copied]')?.remove();
  button.after(told('span', say('copied')));
  saidAloud(textOf(say('copied')));
};

/**
 * Copies the answer of the question at hand.
 * @param {string} as
 * @param {HTMLElement} button
 */
export const copyAnswer = (as, button) => {
  const found = answers.get(question());
  if (found === undefined) return;
  const { answer } = found, asked = { question: question(), origin: state.origin };
  copy(as === 'JSON' ? asJson(answer, asked) : as === 'Markdown' ? asMarkdown(answer) : asText(answer), button);
};
