/** Shorter headers that allow the same. */
import { describeText } from '../../js/describe.js';
import { tidy } from '../../js/index.js';
import { shorterOf } from '../../js/propose.js';
import { code, copied, table } from '../answer.js';
import { headersText, readingBlocks } from '../reading.js';
import { say } from '../sentences.js';

/**
 * @param {import('../../js/index.js').Program} program
 * @param {{ origin: string, reading: import('../reading.js').Reading }} given
 * @returns {import('../answer.js').Answer}
 */
export const shorter = (program, { origin, reading }) => {
  const headers = headersText(reading.lines), found = shorterOf(program, origin, headers);
  const { needed } = tidy(program, { origin, headers });
  const rows = needed.map(({ directive, token, how, request }) =>
    [code(directive), code(token), how === 'with' ? 'allows' : 'blocks', describeText(request)]);
  return {
    mood: 'warn', sentence: found === null ? say('noShorter') : say('shorter', headers.length - found.length),
    more: found === null ? [] : [say('oldBrowsers')], unseen: ['report-only policies: not made shorter'],
    blocks: [
      ...copied(say('shorterHeaders'), found?.trimEnd(), { file: 'policy.txt' }),
      ...table(say('needed'), ['Directive', 'Word', 'It', 'As'], rows, { isFolded: true }),
      ...readingBlocks(program, [reading]),
    ],
    data: { headers: found, needed },
  };
};
