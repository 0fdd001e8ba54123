/** Whether a page may be framed: by `frame-ancestors`, and by X-Frame-Options where nothing enforces that. */
import { why } from '../../js/index.js';
import { Refusal } from '../../js/refusal.js';
import { urlOf } from '../../js/readers/urls.js';
import { headersText, policiesIn, readingBlocks } from '../reading.js';
import { say } from '../sentences.js';

/**
 * @typedef {import('../answer.js').Text} Text
 * What X-Frame-Options does; `void` where its value is none.
 * @typedef {'allows' | 'blocks' | 'void' | 'absent'} Options
 */

const BAD_ORIGIN = 3;

/**
 * The values of X-Frame-Options in response headers, in lower case, each once.
 * @param {string} response
 */
const valuesIn = response => [...new Set(response.split(/\r?\n/)
  .flatMap(it => /^\s*["']?x-frame-options["']?\s*:\s*["']?([^"']*)/i.exec(it)?.[1].split(',') ?? [])
  .map(it => it.trim().toLowerCase()))];

/**
 * What X-Frame-Options does with a page (HTML, "check a navigation response's adherence to X-Frame-Options").
 * @param {string[]} values
 * @param {string[]} ancestors
 * @param {string} origin
 * @returns {Options}
 */
export const frameOptions = (values, ancestors, origin) => {
  const known = ['deny', 'allowall', 'sameorigin'];
  if (values.length === 0) return 'absent';
  if (values.length > 1) return values.some(it => known.includes(it)) ? 'blocks' : 'void';
  if (values[0] === 'deny') return 'blocks';
  if (values[0] !== 'sameorigin') return values[0] === 'allowall' ? 'allows' : 'void';
  return ancestors.every(it => it === origin && it !== 'null') ? 'allows' : 'blocks';
};

/**
 * Whether an enforced policy decides who may frame the page.
 * @param {import('../../js/index.js').Program} program
 * @param {string[]} lines
 */
const hasAncestors = (program, lines) => policiesIn(program, lines).some(it =>
  it.disposition === 'enforce' && it.directives.some(of => of.name === 'frame-ancestors'));

/** @param {string} text the addresses of the pages around it, the nearest first */
const originsIn = text => text.split(/[\s,]+/).map(it => {
  const origin = it === 'null' ? it : urlOf(it)?.origin;
  if (origin !== undefined && (origin !== 'null' || it === 'null')) return origin;
  const hint = 'Write the address of the page that frames yours, as https://portal.example/.';
  throw new Refusal(BAD_ORIGIN, { problem: `no address of a page: ${JSON.stringify(it)}`, hint });
});

/**
 * @param {Options} options
 * @param {string[]} values
 * @param {boolean} isIgnored
 * @returns {Text[]}
 */
const optionsTold = (options, values, isIgnored) => {
  const value = values.join(', ');
  if (options === 'absent') return [say('optionsAbsent')];
  if (isIgnored) return [say('optionsIgnored', value)];
  return [options === 'void' ? say('optionsVoid', value) : say('optionsDecide', value, options === 'blocks')];
};

/**
 * @param {import('../../js/index.js').Program} program
 * @param {{ embedder: string, origin: string, response: string,
 *   reading: import('../reading.js').Reading }} given
 * @returns {import('../answer.js').Answer}
 */
export const framed = (program, { embedder, origin, response, reading }) => {
  const ancestors = originsIn(embedder), headers = headersText(reading.lines);
  const [reason] = why(program, { origin, headers, requests: [{ kind: 'ancestors', ancestors }] });
  const values = valuesIn(response), isIgnored = hasAncestors(program, reading.lines);
  const options = frameOptions(values, ancestors, origin), isStopped = !isIgnored && options === 'blocks';
  const deciding = reason.policies.filter(it => it.directive === 'frame-ancestors');
  const tokens = deciding.flatMap(it => it.token ?? []);
  const sentence = reason.blocked ? say('framedByPolicy', embedder)
    : isStopped ? say('framedByOptions', embedder, values.join(', '))
      : isIgnored ? say('framedAllowed', embedder, tokens.join(' and ')) : say('framedUndecided', embedder);
  const told = optionsTold(options, values, isIgnored);
  const isReported = !reason.blocked && reason.items.length > 0;
  return {
    mood: 'plain', sentence, more: isReported ? [say('framedReported'), ...told] : told,
    blocks: readingBlocks(program, [reading]),
    unseen: ["the embedder's own frame-src, and what it requires of frames: not looked at"],
    data: {
      ancestors, blocked: reason.blocked || isStopped, frameAncestors: reason,
      frameOptions: { values, options, isIgnored },
    },
  };
};
