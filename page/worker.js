/** The worker: it has the engine and the readers, and does a task for each message. */
import { loadEngine } from '../js/engine.js';
import { ReadingError } from '../js/readers/error.js';
import { Refusal } from '../js/refusal.js';
import { described, takenFor } from './given.js';
import { own } from './own.js';
import { answerTo } from './question.js';

/**
 * @typedef {import('../js/index.js').Program} Program
 * @typedef {(program: Program, given: any, tell: (done: number, all: number) => void) => unknown} Task
 */

/** @type {Record<string, Task>} */
const TASKS = {
  answer: answerTo, own,
  call: (program, { words, files }) => program.call(words, files),
  describe: (program, raw) => described(raw),
  take: (program, given) => takenFor(given),
};

/**
 * Why there is no answer.
 * @param {unknown} error
 * @returns {import('./asking.js').Refused}
 */
const told = error => {
  if (error instanceof Refusal) {
    return { file: error.file, line: error.line, problem: error.problem, hint: error.hint };
  }
  if (!(error instanceof ReadingError)) return { problem: String(error) };
  const { said, found, write, line, file } = error.told;
  const problem = found === undefined ? said : `${said}: "${found.slice(0, 60)}"`;
  return { file, line, problem, hint: `${write}.` };
};

const engine = /** @type {Promise<Program>} */ (new Promise(resolve => {
  self.addEventListener('message', ({ data }) => {
    if (data.module) resolve(loadEngine(data.module));
  });
}));

self.addEventListener('message', async ({ data: { id, task, given } }) => {
  if (task === undefined) return;
  const tell = (/** @type {number} */ done, /** @type {number} */ all) => self.postMessage({ id, done, all });
  try {
    self.postMessage({ id, answer: await TASKS[task](await engine, given, tell) });
  } catch (error) {
    self.postMessage({ id, refused: told(error) });
  }
});
