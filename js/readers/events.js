// What a browser says itself of a page that a person has open: the events of violations, copied by a
// snippet, and lines of its console, in the words of Chromium and Firefox.
import { ReadingError } from './error.js';
import { isBody, noiseOf, violationOf } from './violations.js';

/**
 * @typedef {import('./violations.js').Violation} Violation
 * @typedef {{violation: Violation, line: number}} Row a violation and the line of the text in which it stood
 * @typedef {object} Events
 * @property {Row[]} rows
 * @property {import('./html.js').Said[]} left what wasn't understood, and what browsers and extensions did
 * @property {string[]} unseen
 */

/** For the console: opens the page once more, and keeps all violations of that copy from its begin. */
export const SNIPPET = `(() => {
  const names = ['documentURI', 'blockedURI', 'effectiveDirective', 'originalPolicy', 'disposition',
    'sourceFile', 'lineNumber', 'columnNumber', 'sample'];
  const seen = [], copy = open(location.href);
  (copy ?? window).addEventListener('securitypolicyviolation', event =>
    seen.push(Object.fromEntries(names.map(it => [it, event[it]]))));
  window.policyViolations = () => JSON.stringify(seen, null, 1);
  const use = copy ? 'Use the page that has opened, and leave it open.' : 'No page has opened: use this one.';
  return use + ' Then come back and type: copy(policyViolations())';
})();`;

const UNSEEN = [
  'violations in frames and workers, which raise no event in the page: not looked at',
  'what the page does after the copy was taken, and what nobody used: not looked at',
];

// What Chromium's console says was done, in its old words ("Refused to load ..") and its new ones
// ("Loading .. violates .."); the directive for it, and what was blocked where no URL stands there.
const CHROMIUM = /** @type {[RegExp, string, string?][]} */ ([
  [/\bload(?:ing)? the script '/i, 'script-src-elem'],
  [/\bload(?:ing)? the stylesheet '/i, 'style-src-elem'],
  [/\bload(?:ing)? the image '/i, 'img-src'],
  [/\bload(?:ing)? the font '/i, 'font-src'],
  [/\bload(?:ing)? (?:a )?manifest from +'/i, 'manifest-src'],
  [/\bload(?:ing)? media from +'/i, 'media-src'],
  [/\bload(?:ing)? plugin data from +'/i, 'object-src'],
  [/\bconnect(?:ing)? to '/i, 'connect-src'],
  [/\bcreat(?:e|ing) a worker from '/i, 'worker-src'],
  [/\bsend(?:ing)? form data to '/i, 'form-action'],
  [/\bset(?:ting)? the document's base URI to '/i, 'base-uri'],
  [/\bfram(?:e|ing) '/i, 'frame-src'],
  [/\b(?:run(?:ning)?|execut(?:e|ing)) (?:the )?JavaScript URL/i, 'script-src-elem', 'inline'],
  [/\bexecut(?:e|ing) inline script/i, 'script-src-elem', 'inline'],
  [/\bexecut(?:e|ing) inline event handler/i, 'script-src-attr', 'inline'],
  [/\bapply(?:ing)? inline style/i, 'style-src', 'inline'],
  [/\bevaluat(?:e|ing) a string as JavaScript/i, 'script-src', 'eval'],
  [/\bcompil(?:e|ing) or instantiat(?:e|ing) (?:a )?WebAssembly/i, 'script-src', 'wasm-eval'],
]);
const VIOLATES = new RegExp([
  /^(.*?)(?:violates|\bin) the following (?:report-only )?Content Security policy directive/,
  /(?: because [^:"]*)?:? (?:"([^"]*)"|'(.*?)'\.(?: |$))(.*)/,
].map(it => it.source).join(''), 'i');

// What Firefox's console says was blocked.
const FIREFOX = new RegExp([
  /Content[- ]Security[- ]Policy: (\(Report-Only policy\) )?The page.s settings (?:blocked|would block) /,
  /(.*?) \(([a-z-]+)\)(?: at (\S+))?(?: from being \w+)? because it violates the following directive: /,
  /[“"]([^”]*)[”"](.*)/,
].map(it => it.source).join(''));
const FIREFOX_WORDS = /** @type {[RegExp, string][]} */ ([
  [/^an inline |^an event handler/, 'inline'], [/^a JavaScript eval/, 'eval'], [/^WebAssembly/, 'wasm-eval'],
  [/^a javascript: URL/i, 'inline'],
]);

/**
 * The place that stands before or behind a line of a console, as `page.html:12:5`.
 * @param {string} text
 */
const placeOf = text => {
  const found = /((?:https?:\/\/\S+?|\(index\)|[\w.-]+\.\w+)):(\d+)(?::(\d+))?\b/.exec(text);
  if (found === null) return { file: '', line: undefined, column: undefined };
  const [, name, line, column] = found, file = /^https?:/.test(name) ? name : '';
  return { file, line: Number(line), column: column === undefined ? undefined : Number(column) };
};

/**
 * @param {string} text a line of Chromium's console
 * @returns {Violation | undefined}
 */
const ofChromium = text => {
  const found = VIOLATES.exec(text);
  if (found === null) return undefined;
  const [all, did, quoted, single, rest] = found, policy = quoted ?? single;
  const kinds = CHROMIUM.flatMap(([pattern, directive, word]) => {
    const hit = pattern.exec(did);
    return hit === null ? [] : [{ at: hit.index, end: hit.index + hit[0].length, directive, word }];
  });
  if (kinds.length === 0) return undefined;
  const { at, end, directive, word } = kinds.reduce((first, it) => it.at < first.at ? it : first);
  return {
    directive: policy.startsWith('frame-ancestors') ? 'frame-ancestors' : directiveOf(directive, rest),
    blocked: word ?? did.slice(end, did.lastIndexOf("'")), policy, page: '', sample: '',
    disposition: /report[- ]only/i.test(all.replace(policy, '')) ? 'report' : 'enforce',
    ...placeOf(did.slice(0, at)),
  };
};

/**
 * Of inline style the console tells an attribute from an element only where it speaks of hashes.
 * @param {string} directive
 * @param {string} rest
 */
const directiveOf = (directive, rest) => {
  if (directive !== 'style-src' || !rest.includes('required to enable inline execution')) return directive;
  const isAttribute = rest.includes('hashes do not apply to event handlers, style attributes');
  return isAttribute ? 'style-src-attr' : 'style-src-elem';
};

/**
 * @param {string} text a line of Firefox's console
 * @returns {Violation | undefined}
 */
const ofFirefox = text => {
  const found = FIREFOX.exec(text);
  if (found === null) return undefined;
  const [, report, what, directive, url, policy, rest] = found;
  const word = FIREFOX_WORDS.find(([pattern]) => pattern.test(what))?.[1];
  return {
    directive, blocked: word ?? url ?? '', policy, page: '',
    sample: /Source: (.*?)(?: \S+:\d+:\d+)?$/.exec(rest)?.[1] ?? '',
    disposition: report === undefined ? 'enforce' : 'report', ...placeOf(rest),
  };
};

/**
 * The lines of a console, a message in each: Chromium writes some in two lines.
 * @param {string} text
 */
const messages = text =>
  text.replace(/\n\s*(The (?:policy is report-only|action has been blocked)[^\n]*)/g, ' $1\n').split('\n');

/**
 * Lines of a console. A line that tells of no violation is passed over.
 * @param {string} text
 * @returns {Events}
 */
const ofConsole = text => {
  const rows = /** @type {Row[]} */ ([]), left = /** @type {import('./html.js').Said[]} */ ([]);
  messages(text).forEach((it, n) => {
    const violation = ofFirefox(it) ?? ofChromium(it), line = n + 1, short = it.trim().slice(0, 80);
    if (violation !== undefined) rows.push({ violation, line });
    else if (/violates the document's Content Security Policy/.test(it)) {
      left.push({ line, said: `this line repeats another one, and is left out: "${short}"` });
    } else if (/Content[- ]Security[- ]Policy/i.test(it)) {
      left.push({ line, said: `this line isn't understood, and is left out: "${short}"` });
    }
  });
  return { rows, left, unseen: UNSEEN };
};

/**
 * Sets apart what a browser or an extension did itself, which no page can mend.
 * @param {Events} events
 * @returns {Events}
 */
const withoutNoise = ({ rows, left, unseen }) => {
  const noise = rows.flatMap(({ violation, line }) => {
    const scheme = noiseOf(violation);
    return scheme === undefined ? [] : [{ line, said: `this is of ${scheme}, and is set apart` }];
  });
  return { rows: rows.filter(it => noiseOf(it.violation) === undefined), left: [...left, ...noise], unseen };
};

/**
 * Reads what the snippet copied, or lines of a console.
 * @param {string} given
 * @returns {Events}
 */
export const readEvents = given => {
  const text = given.replace(/^\uFEFF/, '').replace(/\r\n?/g, '\n');
  const isJson = /^\s*\[/.test(text) && !/^\s*\[Report Only\]/i.test(text);
  const read = withoutNoise(isJson ? ofSnippet(text) : ofConsole(text));
  if (read.rows.length > 0 || read.left.length > 0 || isJson) return read;
  throw new ReadingError({
    said: 'no violation stands in this', found: text.trim().split('\n')[0],
    write: 'Give what the snippet copied, or lines of the console that begin with "Refused to" or '
      + '"Content-Security-Policy", or say "violates the following Content Security Policy directive"',
  });
};

/** @param {string} text */
const ofSnippet = text => {
  let list;
  try {
    list = JSON.parse(text);
  } catch (error) {
    const said = `this is no JSON (${error instanceof Error ? error.message : error})`;
    throw new ReadingError({ said, write: 'Copy all that copy(policyViolations()) gave' });
  }
  const odd = list.findIndex((/** @type {unknown} */ it) => !isBody(it));
  if (odd >= 0) {
    throw new ReadingError({
      said: `event ${odd + 1} names no directive`, found: JSON.stringify(list[odd]),
      write: 'Copy all that copy(policyViolations()) gave',
    });
  }
  const rows = list.map((/** @type {Record<string, any>} */ it, /** @type {number} */ n) =>
    ({ violation: violationOf(it), line: n + 1 }));
  return { rows, left: [], unseen: UNSEEN };
};
