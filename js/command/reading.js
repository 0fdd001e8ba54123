/** What is said of how headers are read. */
import { counted } from './judged.js';
import { table } from './page.js';

/**
 * @typedef {import('./words.js').Asked} Asked
 * @typedef {import('./words.js').Told} Told
 * @typedef {import('../index.js').Reading} Reading
 */

const REASONS = {
  'duplicate': 'another one of its name stands before it', 'not-ascii': 'it has a character outside ASCII',
  'not-in-meta': 'it has no effect in a meta element', 'empty-policy': 'nothing is left of the policy',
};

/** @param {Reading['policies'][0]} policy */
const whatOf = ({ disposition, meta }) =>
  `${disposition === 'enforce' ? 'enforced' : 'only reports'}${meta ? ', meta' : ''}`;

const HEAD = ['policy', 'it is', 'directive', 'decides', 'values'];
const DROPPED = ['policy', 'dropped', 'since'];

/**
 * @param {string[]} head
 * @param {string[][]} rows
 * @param {import('./page.js').Page} page
 */
const lines = (head, rows, page) => rows.length === 0 ? [] : [...table(head, rows, page), ''];

/**
 * @param {Reading} reading
 * @param {Asked} asked
 * @returns {Told}
 */
export const tellReading = ({ policies, dropped }, { names, page }) => {
  const rows = policies.flatMap(policy => policy.directives.map(({ name, decides, tokens }) => {
    const values = tokens.map(it => it.text).join(' ');
    return [String(policy.policy + 1), whatOf(policy), name, decides ? 'yes' : 'no', values];
  }));
  const pieces = dropped.filter(it => it.dropped.trim() !== '').map(({ policy, dropped: text, reason }) =>
    [policy === null ? '-' : String(policy + 1), text.trim(), REASONS[reason]]);
  const count = policies.length === 1 ? '1 policy' : `${policies.length} policies`;
  const more = pieces.length === 0 ? ''
    : ` ${counted(pieces.length, 'piece')} of it ${pieces.length > 1 ? 'are' : 'is'} dropped.`;
  return {
    lines: [...lines(HEAD, rows, page), ...lines(DROPPED, pieces, page)],
    mood: policies.length === 0 || pieces.length > 0 ? 'yellow' : 'green',
    sentence: `${names.headers} has ${count} with ${counted(rows.length, 'directive')}.${more}`,
    warnings: [], status: 0, findings: () => [],
    covers: "A directive that doesn't decide here may do something in browsers, as Trusted Types and "
      + 'reporting.',
  };
};
