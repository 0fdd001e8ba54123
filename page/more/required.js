/** Whether an embedder that requires a policy of a response may show it (CSP: Embedded Enforcement). */
import { blocksNothing, embed } from '../../js/index.js';
import { headersText, readingBlocks } from '../reading.js';
import { say } from '../sentences.js';
import { proofBlock, shownText } from '../weaker.js';

/**
 * `response` is the header lines as they stand, since Allow-CSP-From is among them.
 * @typedef {import('../reading.js').Reading} Reading
 * @param {import('../../js/index.js').Program} program
 * @param {{ embedder: string, origin: string, required: Reading, response: string, reading: Reading }} given
 * @returns {import('../answer.js').Answer}
 */
export const required = (program, { embedder, origin, required: asked, response, reading }) => {
  const headers = headersText(asked.lines);
  const answer = embed(program, { embedder, origin, required: headers, response });
  const told = {
    more: [say('embeddedBy', origin, embedder)], blocks: readingBlocks(program, [asked, reading]),
    data: answer,
    unseen: ['whether the response may be framed at all: frame-ancestors and X-Frame-Options decide that'],
  };
  if (answer.answer === 'added') {
    return { ...told, mood: 'warn', sentence: say('requiredAdded', answer.policy) };
  }
  if (answer.answer === 'refused') {
    return { ...told, mood: 'bad', sentence: say('requiredRefused', shownText(answer)) };
  }
  if (blocksNothing(program, { origin, headers })) {
    return { ...told, mood: 'warn', sentence: say('requiredNothing') };
  }
  const blocks = [...told.blocks, ...proofBlock(answer.proof)];
  return { ...told, mood: 'good', sentence: say('requiredServed'), blocks };
};
