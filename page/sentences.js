/** All sentences that the page can show, in one place. bench/page has a case that shows each. */
import { ENFORCED } from '../js/readers/har.js';
import { counted, number } from './answer.js';

/** @param {number} count */
const are = count => count === 1 ? 'is' : 'are';

/** @param {string} origin */
const onPage = origin => `On a page ${origin === 'null' ? 'without an origin' : `of ${origin}`}`;

/** @param {string[]} names the first of them */
const some = names => `${names.slice(0, 3).join(', ')}${names.length > 3 ? ` and ${names.length - 3} more` : ''}`;

/** @param {number} count of what is possible besides */
const others = count => count === 0 ? '' : ` ${counted(count, 'other thing')} ${are(count)} possible.`;

/**
 * @param {string} head
 * @param {number} shown
 * @param {number} hosts
 */
const byHosts = (head, shown, hosts) =>
  hosts > shown ? `${head}: the first ${shown} of ${hosts} hosts` : head;

/** @typedef {number} N */
/** @typedef {string} T */

const BLOCKED = {
  /** @type {(all: N, where: T) => T} */
  noneBlocked: (all, where) => `None of ${counted(all, 'request')}${where} is blocked.`,
  /** @type {(blocked: N, all: N, where: T) => T} */
  someBlocked: (blocked, all, where) =>
    `${number(blocked)} of ${counted(all, 'request')}${where} ${are(blocked)} blocked.`,
  /** @type {(alone: N, blocked: N, all: N) => T} */
  browserAlone: (alone, blocked, all) =>
    `The browser tells of ${counted(alone, 'violation')} that ${are(alone)} not in this answer.`
    + ` Of ${counted(all, 'request')} that ${all === 1 ? 'was' : 'were'} given,`
    + ` ${number(blocked)} ${are(blocked)} blocked.`,
  /** @type {(count: N) => T} */
  eventsAlone: count =>
    `The browser tells of ${counted(count, 'violation')}. No page was given, so nothing else was judged.`,
  nothingJudged: () => 'Nothing was given that a page loads or runs, so nothing was judged.',
  giveAPage: () =>
    'Drop a HAR or the HTML of the page, paste the lines of its console, or ask about one request.',
  recordedEnforced: () => `${ENFORCED[0].toUpperCase()}${ENFORCED.slice(1)}.`
    + ' So more may be blocked than stands here; below stands how to record without the policy.',
  /** @type {(count: N) => T} */
  perhapsBlocked: count => `Of these ${number(count)} may not happen: the page names`
    + ` ${count === 1 ? 'it' : 'them'}, and a browser may do without.`,
  /** @type {(count: N, blocked: N) => T} */
  wouldBlock: (count, blocked) =>
    `${number(count)}${blocked > 0 ? ' more' : ''} would be blocked,`
    + ' if policies that only report were enforced.',
  /** @type {(name: T) => T} */
  decidesNothing: name =>
    `No enforced policy decides anything on ${name}: nothing is blocked there, whatever it loads.`,
  /** @type {(names: T[]) => T} */
  inlineNotGiven: names => `Inline code wasn't given, so none of it was judged: ${some(names)}.`,
  /** @type {(names: T[]) => T} */
  scriptsNotRun: names => 'What scripts load and insert stands in no HTML, so none of it was judged:'
    + ` ${some(names)}. A HAR of the page has more of it.`,
  /** @type {(all: N, same: N) => T} */
  browserTells: (all, same) =>
    `The browser tells of ${counted(all, 'violation')}:`
    + ` ${number(same)} of them ${are(same)} in this answer too.`,
  toldAlone: () => 'What the browser tells of, and this answer doesn\'t',
  notGiven: () => 'Nothing of this was given, so this answer says nothing of it.',
  saysOther: () => 'This answer says that it is allowed, but the browser says otherwise.',
  /** @type {(count: N) => T} */
  untold: count => `What this answer tells of, and the browser doesn't (${number(count)})`,
  notAllowed: () => 'What isn\'t allowed, by directive and host',
  /** @type {(count: N) => T} */
  allowed: count => `What is allowed, and by which word (${number(count)})`,
  byPage: () => 'Page by page',
  recordInChromium: () => 'How to record without the policy in Chromium',
  recordInFirefox: () => 'How to record without the policy in Firefox',
  marked: () => 'Probably not meant so',
  /** @type {(count: N) => T} */
  howRead: count => `How the headers were read (${counted(count, 'directive')})`,
  /** @type {(text: T, effective: T) => T} */
  decides: (text, effective) => text.startsWith(effective) ? `${text}: no word of it allows this.`
    : `${text} decides ${effective}: no word of it allows this.`,
  /** @type {(text: T, effective: T) => T} */
  standsIn: (text, effective) => `${text} decides, for want of ${effective}: no word of it allows this.`,
  /** @type {(token: T, but: T) => T} */
  near: (token, but) => `${token} would allow it, but ${but}.`,
  /** @type {(sources: T, directive: T, more: N) => T} */
  toAllow: (sources, directive, more) =>
    `To allow it: add ${sources}${more > 0 ? ` and the ${number(more)} others below` : ''} to ${directive}.`,
  /** @type {(advice: T) => T} */
  instead: advice => `What to do: ${advice}.`,
  /** @type {(advice: T) => T} */
  orElse: advice => `Or: ${advice}.`,
  /** @type {(advice: T) => T} */
  better: advice => `Better: ${advice}.`,
  /** @type {(name: T, shown: N, hosts: N) => T} */
  matrix: (name, shown, hosts) =>
    byHosts(`Directives by hosts${name === '' ? '' : ` on ${name}`}`, shown, hosts),
  /** @type {(shown: N, hosts: N) => T} */
  changeMatrix: (shown, hosts) => byHosts('Directives by hosts, before and after', shown, hosts),
};

const ATTACKER = {
  noHeaders: () => 'No headers were given: without a policy, injected markup can do all that a page can.',
  allPossible: () => 'These headers block nothing of what an attacker may try: all of it is possible.',
  /** @type {(ways: N, rest: N) => T} */
  runsCode: (ways, rest) => `Injected markup could run code, in ${counted(ways, 'way')}.${others(rest)}`,
  /** @type {(ways: N, rest: N) => T} */
  runsHosted: (ways, rest) => 'Injected markup couldn\'t run code by itself,'
    + ` but with a file on an allowed host it could, in ${counted(ways, 'way')}.${others(rest)}`,
  /** @type {(rest: N) => T} */
  noCode: rest => `Injected markup couldn't run code.${others(rest)}`,
  nothingPossible: () =>
    'Nothing of what was tried is possible to injected markup, or to a site that frames the page.',
  /** @type {(origin: T) => T} */
  attackerOf: origin => `${onPage(origin)}, for an attacker who writes markup into it and knows no nonce.`
    + ' One host that no policy names stands for all of them, one script without a nonce for all.',
  /** @type {(count: N) => T} */
  possible: count => `What is possible (${number(count)})`,
  /** @type {(count: N) => T} */
  impossible: count => `What is blocked (${number(count)})`,
  known: () => 'Known, and not proved',
  /** @type {(why: T) => T} */
  because: why => `${why.replace(/^no /, 'No ')}.`,
  /** @type {(what: T) => T} */
  takes: what => `It takes ${what}.`,
  /** @type {(what: T) => T} */
  stops: what => `To stop it: ${what}.`,
};

const WEAKER = {
  /** @type {(directives: T, loose: T) => T} */
  weaker: (directives, loose) =>
    `Weaker: the new headers allow what the old ones block, under ${directives}.`
    + (loose === '' ? '' : ` Besides, no proof covers what got looser: ${loose}.`),
  /** @type {(loose: T) => T} */
  loosened: loose => `Weaker outside the proof: the new headers loosen ${loose}, which no proof covers.`,
  oldNothing: () => 'No answer: the old headers block nothing, so nothing is weaker than they.',
  notWeaker: () =>
    'Not weaker: the new headers block all that the old ones block. Two checkers accept the proof.',
  /** @type {(origin: T) => T} */
  oneShown: origin => `${onPage(origin)}. One request is shown for each directive; there may be more.`,
  /** @type {(origin: T) => T} */
  coversAll: origin =>
    `${onPage(origin)}. The proof covers every request, whatever its host, nonce and code.`,
  /** @type {(names: T) => T} */
  noncesRenamed: names =>
    `The nonces are taken for those of two responses, and compared as the same: ${names}.`,
  /** @type {(old: N, newer: N) => T} */
  noncesUnmatched: (old, newer) => `The nonces can't be matched: ${old} before, ${newer} now.`
    + ' What carries a nonce of the new headers is new.',
  uncovered: () => 'Changed, and covered by no proof',
  changed: () => 'What changed, directive by directive',
  /** @type {(directives: T) => T} */
  same: directives => `The same: ${directives}.`,
  /** @type {(left: T) => T} */
  attackerChanged: left => `What an attacker could do, before and now (as before: ${left})`,
  /** @type {(all: T) => T} */
  attackerSame: all => `What an attacker could do is the same: ${all} that were tried.`,
  /** @type {(lines: N) => T} */
  proof: lines => `The proof (${counted(lines, 'line')})`,
};

const MADE = {
  madePolicy: () => 'The policy. RANDOM stands for a nonce that is new in each response',
  /** @type {(count: N) => T} */
  needNonce: count => `${counted(count, 'element')} that must get the nonce; until then they are blocked`,
  /** @type {(count: N) => T} */
  stillBlocked: count => `Still blocked (${number(count)})`,
  stillPossible: () => 'With this policy an attacker who may write markup into a page could still do this',
  madeShorter: () => 'Shorter, and the same in browsers of today. Old ones that know no nonces or no'
    + ' \'strict-dynamic\' need what it lacks',
  additions: () => 'What each addition would end',
  /** @type {(asked: T, isThen: boolean) => T} */
  noneStill: (asked, isThen) => isThen
    ? `None of ${asked} is still blocked by this policy, once the nonces are in their places.`
    : `None of ${asked} is still blocked by this policy.`,
  /** @type {(left: N, asked: T, isThen: boolean) => T} */
  someStill: (left, asked, isThen) => `${number(left)} of ${asked} ${are(left)} still blocked by this policy`
    + `${isThen ? ', even once the nonces are in their places' : ''}.`,
  /** @type {(sources: N, ended: N, all: N) => T} */
  wouldEnd: (sources, ended, all) =>
    `${counted(sources, 'addition')} would end ${number(ended)} of ${counted(all, 'violation')}.`,
  /** @type {(directives: T) => T} */
  kept: directives => `Kept from the present policy: ${directives}.`,
  nothingToMake: () => 'Nothing was given that a policy could be made from: drop a HAR, HTML or reports.',
};

const REPORTED = {
  noReport: () => 'No report stands in this: it says nothing of what is blocked.',
  noViolation: () => 'No violation of the pages themselves was reported.',
  /** @type {(count: N, kinds: N) => T} */
  violations: (count, kinds) => `${counted(count, 'violation')} of ${counted(kinds, 'kind')}.`,
  /** @type {(count: N, all: N) => T} */
  stillReports: (count, all) =>
    `The headers would still report ${number(count)} of ${counted(all, 'violation')}.`,
  notAllRead: () => 'Not all of what was given was read as reports: what wasn\'t stands beside this.',
  endedNotAll: () =>
    'That these reports would end isn\'t all: other visitors, pages and browsers may report other things.',
  ofBrowsers: () => 'What no browser reported isn\'t in this.',
  /** @type {(count: N) => T} */
  reported: count => `What was reported, by directive and host (${number(count)})`,
  /** @type {(pages: T[]) => T} */
  onPages: pages =>
    `On ${pages.slice(0, 2).join(', ')}${pages.length > 2 ? ` and ${pages.length - 2} more pages` : ''}.`,
  withAdditions: () => 'The headers with these additions',
  giveReports: () => 'No report was given: drop a log of reports, or paste one.',
};

const FURTHER = {
  /** @type {(bytes: N) => T} */
  shorter: bytes =>
    `Shorter by ${counted(bytes, 'byte')}: these headers allow exactly the same in browsers of today.`,
  noShorter: () => 'Nothing can be left out: no shorter headers were found that allow exactly the same.',
  oldBrowsers: () => 'Before you send them: old browsers that know no nonces or no \'strict-dynamic\' need'
    + ' \'unsafe-inline\' and https: beside these. Where you have such visitors, keep the longer ones.',
  shorterHeaders: () => 'The shorter headers',
  needed: () => 'Why each other word stays',
  accepted: () => 'Accepted by both checkers: the new headers block all that the old ones block.',
  /** @type {(line: N, text: T) => T} */
  rejected: (line, text) => `Rejected by both checkers: line ${line} breaks a rule: ${text}`,
  /** @type {(origin: T) => T} */
  checkedFor: origin => `For these old and new headers, in this order. ${onPage(origin)}.`,
  giveProof: () => 'No proof was given: paste one, as "Is the new one weaker?" shows it.',
  /** @type {(policy: T) => T} */
  requiredAdded: policy =>
    `The response is shown, and this is enforced on it too, as it lets the embedder: ${policy}`,
  requiredServed: () =>
    'The response is shown: it blocks all that the required policy blocks. This is proved.',
  /** @type {(shown: T) => T} */
  requiredRefused: shown =>
    `The response isn't shown: it allows what the required policy blocks, as ${shown}.`,
  requiredNothing: () => 'No answer: the required policy blocks nothing, so that each response meets it.',
  /** @type {(origin: T, embedder: T) => T} */
  embeddedBy: (origin, embedder) => `A response of ${origin}, framed by ${embedder}.`,
  /** @type {(embedder: T) => T} */
  framedByPolicy: embedder => `No: frame-ancestors doesn't allow ${embedder} to frame this page.`,
  /** @type {(embedder: T, value: T) => T} */
  framedByOptions: (embedder, value) =>
    `No: X-Frame-Options: ${value} doesn't allow ${embedder} to frame this page.`,
  /** @type {(embedder: T, by: T) => T} */
  framedAllowed: (embedder, by) =>
    `Yes: frame-ancestors allows ${embedder} to frame this page${by === '' ? '' : `, by ${by}`}.`,
  /** @type {(embedder: T) => T} */
  framedUndecided: embedder => `Yes: no enforced frame-ancestors keeps ${embedder} from framing this page.`,
  framedReported: () => 'A policy that only reports would tell of it.',
  optionsAbsent: () => 'No X-Frame-Options stands in the headers that were given.',
  /** @type {(value: T) => T} */
  optionsIgnored: value =>
    `X-Frame-Options: ${value} adds nothing: browsers pass over it beside an enforced frame-ancestors.`,
  /** @type {(value: T) => T} */
  optionsVoid: value => `X-Frame-Options: ${value} does nothing: browsers know only DENY and SAMEORIGIN.`,
  /** @type {(value: T, isStopped: boolean) => T} */
  optionsDecide: (value, isStopped) => `X-Frame-Options: ${value} decides, since no enforced policy has`
    + ` frame-ancestors: it ${isStopped ? 'blocks' : 'allows'} this.`,
};

const PAGE = {
  giveHeaders: () => 'No headers were given: paste them, or drop a recording of the page.',
  giveNewer: () => 'No new headers were given: paste them beside the old ones.',
  example: () => 'This is an example: a small shop of our own.',
  stale: () => 'Something was changed since. Ask again.',
  /** @type {(name: T, isNew: boolean) => T} */
  takenHeaders: (name, isNew) => `Taken for ${isNew ? 'new ' : ''}headers${name === '' ? '' : `: ${name}`}.`,
  /** @type {(name: T, what: T) => T} */
  takenFile: (name, what) => `Taken for ${what}: ${name}.`,
  /** @type {(name: T, why: T) => T} */
  notTaken: (name, why) => `Not taken: ${name}: ${why}`,
  eachOwn: () => 'Each page\'s own headers count. Paste others here to try them on all pages.',
  forAll: () => 'These headers stand for those of all pages. Empty the field for each page\'s own.',
  linked: () => 'The address of this page is the link now. Who gets it sees all that stands here.',
  linkedWithout: () => 'The address of this page is the link now. Reports aren\'t in it.',
  linkTooLong: () => 'This is too long for a link: send the files, and the headers as a text.',
  copied: () => 'Copied.',
  /** @type {(problem: T) => T} */
  refused: problem => `There is no answer. ${problem}`,
  stopped: () => 'Stopped.',
};

export const SENTENCES = { ...BLOCKED, ...ATTACKER, ...WEAKER, ...MADE, ...REPORTED, ...FURTHER, ...PAGE };

/** @typedef {typeof SENTENCES} Sentences */

/**
 * A sentence, with its name.
 * @template {keyof Sentences} Name
 * @param {Name} name
 * @param {Parameters<Sentences[Name]>} values
 */
export const say = (name, ...values) =>
  ({ says: name, text: /** @type {(...values: any[]) => string} */ (SENTENCES[name])(...values) });
