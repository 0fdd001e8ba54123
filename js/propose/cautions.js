/** What to think of before a proposal is sent to browsers. */
import { ENFORCED, NO_TEXT } from '../readers/har.js';
import { NONCE } from './items.js';

const PAGES = 'Whatever the given pages load and run is allowed. If an attacker may have changed them, '
  + 'what he put there is allowed too.';
const REPORTS = 'A report may tell of an attack that the policy stopped: look at each source first.';
const A_NONCE = `${NONCE} stands for a value that is new in each response, in the header and in the page. `
  + 'One that stays the same protects nothing.';
const LONG = 'The header is longer than 4,000 bytes, which some servers and proxies refuse.';
const TEXTLESS = 'A recording lacks the text of its page. Inline code, forms and <base> were not looked at, '
  + 'and the proposal may block them: export the HAR with content.';
const PDF = 'Chromium decides about a PDF in <object> or <embed> by frame-src too: add its source there.';
const TRIAL = 'Send it as Content-Security-Policy-Report-Only first, and look at the reports.';

/**
 * Why what was given doesn't tell all that the pages need.
 * @param {readonly import('./items.js').GivenPage[]} pages
 */
export const gapsOf = pages => {
  const own = pages.filter(it => (it.role ?? 'page') === 'page');
  return [
    ...own.some(it => it.isEnforced) ? [`${ENFORCED[0].toUpperCase()}${ENFORCED.slice(1)}.`] : [],
    ...own.some(it => it.unseen.includes(NO_TEXT)) ? [TEXTLESS] : [],
  ];
};

/**
 * @param {{ form: string, headers: string, items: readonly import('./items.js').Item[] }} proposed
 */
export const cautionsOf = ({ form, headers, items }) => [
  ...form !== 'addition' || items.some(it => !it.isReport) ? [PAGES] : [],
  ...items.some(it => it.isReport) ? [REPORTS] : [],
  ...headers.includes(`'nonce-${NONCE}'`) ? [A_NONCE] : [],
  ...items.some(it => ['object', 'embed'].includes(it.request.destination)) ? [PDF] : [],
  ...headers.length > 4000 ? [LONG] : [],
  TRIAL,
];
