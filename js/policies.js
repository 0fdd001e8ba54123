/**
 * What headers say, policy by policy, so that one word of them can be changed and the engine asked again. The
 * engine reads them; its numbers are the places in a list of policies.
 */
import { read } from './calls.js';

/**
 * A directive. `decides` says whether a check may go by it, as the engine read it.
 * @typedef {{ name: string, values: string[], decides?: boolean }} Directive
 * @typedef {{ disposition: 'enforce' | 'report', isMeta: boolean, directives: Directive[] }} Policy
 */

/**
 * The policies of header lines, each with the directives that count.
 * @param {import('./calls.js').Program} program
 * @param {{ origin?: string, headers: string | Uint8Array }} given
 * @returns {Policy[]}
 */
export const readPolicies = (program, given) =>
  read(program, given).policies.map(({ disposition, meta, directives }) => ({
    disposition, isMeta: meta, directives: directives.map(({ name, decides, tokens }) =>
      ({ name, values: tokens.map(it => it.text), decides })),
  }));

/** @param {Directive} directive */
export const directiveText = ({ name, values }) => [name, ...values].join(' ');

/**
 * Header lines that say the same, a policy on each.
 * @param {readonly Policy[]} policies
 */
export const headersOf = policies => policies.map(({ disposition, isMeta, directives }) => {
  const header = `Content-Security-Policy${disposition === 'report' ? '-Report-Only' : ''}`;
  return `${isMeta ? 'Meta-' : ''}${header}: ${directives.map(directiveText).join('; ')}\n`;
}).join('');

/**
 * A policy in which a directive has other values, or which has it besides.
 * @param {Policy} policy
 * @param {string} name
 * @param {readonly string[]} values
 * @returns {Policy}
 */
export const withDirective = (policy, name, values) => {
  const written = { name, values: values.length === 0 ? ["'none'"] : [...values] };
  const has = policy.directives.some(it => it.name === name);
  const changed = policy.directives.map(it => it.name === name ? written : it);
  return { ...policy, directives: has ? changed : [...changed, written] };
};

/**
 * The values of a directive of a policy, or none.
 * @param {Policy} policy
 * @param {string} name
 */
export const valuesOf = ({ directives }, name) => directives.find(it => it.name === name)?.values ?? [];

/**
 * All words after the names of directives, each once.
 * @param {readonly Policy[]} policies
 */
export const tokensOf = policies =>
  [...new Set(policies.flatMap(({ directives }) => directives.flatMap(it => it.values)))];
