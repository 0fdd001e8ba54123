/** Whether a proof that new headers aren't weaker than old ones is right, asked of two checkers. */
import { checkProof } from '../../js/checker.js';
import { blocksNothing, check } from '../../js/index.js';
import { textOfLine } from '../../js/places.js';
import { headersText } from '../reading.js';
import { say } from '../sentences.js';

/**
 * @typedef {import('../reading.js').Reading} Reading
 * @param {import('../../js/index.js').Program} program
 * @param {{ origin: string, old: Reading, new: Reading, proof: string }} given
 * @returns {import('../answer.js').Answer}
 */
export const proof = (program, { origin, old: before, new: after, proof: text }) => {
  const question = { origin, new: headersText(after.lines), old: headersText(before.lines), proof: text };
  const engine = check(program, question), second = checkProof(question), data = { engine, second };
  const unseen = ['report-only policies: not compared'];
  const told = { more: [say('checkedFor', origin)], blocks: [], unseen, data };
  if (engine.accepted !== 'accepted' in second) {
    throw new Error('the two checkers differ: please report this fault');
  }
  if (!engine.accepted) {
    return { ...told, mood: 'bad', sentence: say('rejected', engine.line, textOfLine(text, engine.line)) };
  }
  if (blocksNothing(program, { origin, headers: question.old })) {
    return { ...told, mood: 'warn', sentence: say('oldNothing') };
  }
  return { ...told, mood: 'good', sentence: say('accepted') };
};
