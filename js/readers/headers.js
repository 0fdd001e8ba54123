// Headers as people have them become header lines for the engine: a bare value, header blocks, `meta`
// elements, lines of server configurations, what curl prints, and objects. Nothing here decides what a
// policy does.
import { ReadingError, lineAt } from './error.js';
import { metaPolicies } from './html.js';
import { readLiteral } from './literal.js';
import { policyPairs } from './objects.js';
import { asciiLower, isDirective, nearest, DIRECTIVES } from './words.js';

/**
 * @typedef {{line: number, said: string}} Said a sentence about a line, which is counted from 1
 * @typedef {object} Headers
 * @property {string[]} lines header lines for the engine, in their order; without one nothing is blocked
 * @property {Said[]} taken how each of them was read
 * @property {Said[]} left what stood there and wasn't taken, or is known only in part
 */

const NAMES = [
  'Content-Security-Policy', 'Content-Security-Policy-Report-Only', 'Meta-Content-Security-Policy',
];
const NAME = /(?<![\w-])(?:meta-)?content-security-policy(?:-report-only)?(?![\w-])/gi;
const PAGE = /<(?:!doctype|html|head|meta|body|title|link|script|style)\b/i;
// What stands before and behind the name on its line, and how a value ends that has no quotes.
const FORMS = [
  { as: 'a line of curl -v', before: /^< ?$/, end: /\n/ },
  { as: 'an nginx directive', before: /\badd_header\s+["']?$/, end: /;|\n/ },
  {
    as: 'an Apache directive', end: /\s/,
    before: /\bHeader\s+(?:(?:always|onsuccess)\s+)?(?:set|setifempty|append|merge|add)\s+["']?$/i,
  },
  { as: 'an HAProxy rule', before: /\b(?:set|add)-header\s+$/, end: /\n/ },
  { as: 'a Caddy directive', before: /^\s*header\s+(?:[/*@]\S*\s+)?[+?>]?$/, end: /\s/ },
  { as: 'a Caddy directive', before: /^\s*[+?>]?$/, after: /^[^\S\n]+["`]/, end: /\s/ },
  { as: 'a header line in quotes', before: /["'`]$/, after: /^\s*:/, end: /\n/ },
  { as: 'a name and a value in quotes', before: /["'`]$/, end: /\n/ },
  { as: 'a header line', before: /^\s*$/, end: /\n/ },
];
const TAKES_AWAY = /\b(?:Header\s+(?:\w+\s+)?(?:unset|edit\*?|echo)|proxy_hide_header|header)\s+-?$/i;

/** @param {string} text */
const normal = text => text.replace(/^\uFEFF/, '').replace(/\r\n?/g, '\n');

/** @param {string} text the text with all but its line feeds taken out, so that lines keep their numbers */
const blank = text => text.replace(/[^\n]+/g, '');

/**
 * A value on one line. Line feeds in a policy stand between words, as spaces do.
 * @param {string} value
 * @param {number} line
 */
const oneLine = (value, line) => {
  const joined = value.replace(/\s+/g, ' ').trim();
  const odd = /[\0-\x08\x0e-\x1f\x7f]/.exec(joined);
  if (odd === null) return joined;
  const found = `U+${odd[0].charCodeAt(0).toString(16).padStart(4, '0')}`;
  throw new ReadingError({ said: 'no header can carry this character', found, write: 'Take it out', line });
};

/**
 * A text that curl printed, as its last block of headers and the page below it, both at their lines.
 * @param {string} text
 */
const lastBlock = text => {
  const rows = text.split('\n'), isVerbose = rows.some(it => /^< ?HTTP\//.test(it));
  const isHead = (/** @type {string | undefined} */ it) => /^(?:< ?)?HTTP\/[\d.]+ \d{3}/.test(it ?? '');
  const ends = (/** @type {number} */ at) => {
    const end = rows.findIndex((it, n) => n > at && (isVerbose ? /^<\s*$/ : /^\s*$/).test(it));
    return end < 0 ? rows.length : end;
  };
  let at = rows.findIndex(it => it.trim() !== '');
  if (isVerbose) at = rows.map(isHead).lastIndexOf(true);
  if (!isHead(rows[at])) return null;
  let blocks = isVerbose ? rows.filter(isHead).length : 1;
  for (; isHead(rows[ends(at) + 1]); blocks += 1) at = ends(at) + 1;
  const end = ends(at);
  const isBody = (/** @type {string} */ it, /** @type {number} */ n) =>
    n > end && !(isVerbose && /^[<>*{}](?: |$)/.test(it));
  const said = `the last of ${blocks} blocks of headers: the others are left out`;
  return {
    isSent: true,
    head: rows.map((it, n) => n >= at && n < end && (!isVerbose || it.startsWith('<')) ? it : '').join('\n'),
    body: rows.map((it, n) => isBody(it, n) ? it : '').join('\n'),
    said: blocks === 1 ? [] : [{ line: at + 1, said }],
  };
};

/**
 * Splits a text into what may be headers and the page below them.
 * @param {string} text
 */
const parts = text => {
  const block = lastBlock(text);
  if (block !== null) return block;
  const start = PAGE.exec(text)?.index;
  const isPage = start !== undefined && (text.slice(0, start).trim() === '' || /<meta\b/i.test(text));
  if (!isPage) return { isSent: false, head: text, body: '', said: [] };
  const head = text.slice(0, start);
  return { isSent: false, head, body: blank(head) + text.slice(start), said: [] };
};

/**
 * The value that stands behind a name: in quotes to the quote that ends it, else to the end of its form.
 * @param {string} text
 * @param {number} at the place behind the name
 * @param {{end: RegExp, quote?: string}} form `quote` stands before the name and ends the value
 */
const valueAt = (text, at, { end, quote }) => {
  const gap = /^["'`]?\s*(?:value\s*=|=>|[:,=])?[^\S\n]*/.exec(text.slice(at))?.[0] ?? '';
  const rest = (quote ?? '') + text.slice(at + gap.length);
  const opens = /^["'`](?!(?:self|none|unsafe|nonce|sha\d|strict)\b)/.exec(rest)?.[0];
  if (opens === undefined) return { value: folded(rest, end), isQuoted: false };
  const closed = new RegExp(`^${opens}((?:[^\\\\${opens}]|\\\\[\\s\\S])*)${opens}`).exec(rest);
  if (closed === null) {
    throw new ReadingError({
      said: `the quote ${opens} that opens the value isn't closed`, found: rest.split('\n')[0],
      write: `Write ${opens} behind the value`, line: lineAt(text, at),
    });
  }
  if (/^[\w'"`]/.test(rest.slice(closed[0].length))) {
    throw new ReadingError({
      said: `the quote ${opens} that opens the value ends it too early`, found: closed[0],
      write: `Write \\${opens} inside of the value, or other quotes around it`, line: lineAt(text, at),
    });
  }
  return { value: closed[1].replace(/\\\n/g, '\n').replace(/\\([\s\S])/g, '$1'), isQuoted: true };
};

/**
 * A value without quotes. It goes on in lines that begin with white space, or with a directive where no
 * server has sent it, and that aren't headers of their own.
 * @param {string} rest
 * @param {RegExp} end
 * @param {boolean} [isSent]
 */
const folded = (rest, end, isSent = false) => {
  if (end.source !== '\\n') return rest.split(end)[0];
  const [first, ...rows] = rest.split('\n');
  const goesOn = (/** @type {string} */ it) => !/^[ \t]*[\w-]+:(?:\s|$)/.test(it)
    && (/^[ \t]+\S/.test(it) || !isSent && isDirectiveRow(it));
  const stop = rows.findIndex(it => !goesOn(it)), more = stop < 0 ? rows : rows.slice(0, stop);
  if (first.trim() === '' && more.length === 0) return rows[0] ?? '';
  return isSent ? [first, ...more].join('\n') : together([first, ...more]);
};

/**
 * Rows as one value. A row that begins with a directive begins one.
 * @param {string[]} rows
 */
const together = rows => rows.map(it => it.trim()).filter(it => it !== '').reduce((value, row) => {
  const isNew = value !== '' && isDirectiveRow(row) && !value.endsWith(';');
  return `${value}${isNew ? ';' : ''} ${row}`;
}, '');

/**
 * The policies that a header block or a configuration names.
 * @param {string} text
 * @param {boolean} isSent whether these are headers as a server sent them
 * @param {Headers} read
 */
const named = (text, isSent, read) => {
  for (const { index = 0, 0: word } of text.matchAll(NAME)) {
    const line = lineAt(text, index), before = text.slice(text.lastIndexOf('\n', index) + 1, index);
    const at = index + word.length, after = text.slice(at, at + 200);
    const isComment = /^\s*(?:#|\/\/)/.test(before);
    const form = FORMS.find(it => it.before.test(before) && (it.after ?? /^/).test(after));
    if (isComment || form === undefined) {
      read.left.push({ line, said: leftOut(word, isComment, TAKES_AWAY.test(before)) });
      continue;
    }
    const quote = form.as === 'a header line in quotes' ? before.slice(-1) : undefined;
    const found = valueAt(text, at, { end: form.end, quote }), isLine = form.as === 'a header line';
    const given = isSent ? folded(text.slice(at).replace(/^\s*:/, ''), /\n/, true) : found.value;
    put(NAMES.find(it => asciiLower(it) === asciiLower(word)) ?? '', oneLine(given, line), before, read);
    read.taken.push({ line, said: `read as ${form.as}` });
    if (isLine && found.isQuoted) read.left.push({ line, said: isSent ? QUOTES_SENT : QUOTES_TAKEN });
    if (/\$\w/.test(given)) read.left.push({ line, said: VARIABLE });
  }
  const nginx = read.taken.filter(it => it.said.endsWith('nginx directive'));
  if (nginx.length > 1) read.left.push({ line: nginx[0].line, said: NGINX });
};

const QUOTES_SENT = 'quotes stand around the value: browsers take them as a part of it';
const QUOTES_TAKEN = 'quotes stand around the value: taken away, since a server that sends them makes the '
  + 'policy void';
const VARIABLE = 'a variable stands in the value: it is taken as it is written';
const NGINX = 'all add_header lines are taken together, but nginx sends only those of one block';

/**
 * @param {string} name
 * @param {string} value
 * @param {string} before what stands before the name: Apache appends to the header that is there
 * @param {Headers} read
 */
const put = (name, value, before, { lines }) => {
  const last = lines.length - 1, appends = /\b(?:append|merge)\s+["']?$/i.test(before);
  if (appends && lines[last]?.startsWith(`${name}:`)) lines[last] += `, ${value}`;
  else lines.push(`${name}: ${value}`);
};

/**
 * @param {string} name
 * @param {boolean} isComment
 * @param {boolean} takesAway
 */
const leftOut = (name, isComment, takesAway) => {
  if (isComment) return `${name} stands in a comment: left out`;
  const look = 'left out, so look at what the server sends';
  if (takesAway) return `a line that takes ${name} away or edits it: ${look}`;
  return `${name} stands in a text that is no known form: left out`;
};

/** @param {string} row */
const isDirectiveRow = row => {
  const name = asciiLower(row.split(/[\s;]/)[0]);
  return isDirective(name) || nearest(name, DIRECTIVES) !== undefined || /^[a-z]+-src\b/.test(name);
};

/**
 * A line without the quotes around it. The quote of a keyword at its end stays.
 * @param {string} row
 */
const unquoted = row => {
  const bare = row.replace(/^["'`](?=[a-z])|["'`][,;]*$/gi, '');
  return /(?:^|\s)'[^\s']+$/.test(bare) ? `${bare}'` : bare;
};

/**
 * A bare value, in one line or with a directive in each.
 * @param {string} text
 * @param {Headers} read
 */
const bare = (text, read) => {
  const rows = text.split('\n').map((it, n) => ({ text: unquoted(it.trim()), line: n + 1 }))
    .filter(it => it.text !== '' && !it.text.startsWith('#'));
  if (rows.length === 0 || !isDirectiveRow(rows[0].text)) return;
  const { line } = rows[0], to = rows.length > 1 ? `, in lines ${line} to ${rows[rows.length - 1].line}` : '';
  const value = together(rows.map(it => it.text));
  read.lines.push(`Content-Security-Policy: ${oneLine(value, line)}`);
  read.taken.push({ line, said: `read as a bare value of an enforced policy${to}` });
};

/**
 * Headers that browsers of today pass over, names that are near to one that they read, and lines that are no
 * headers where a server has sent them.
 * @param {string} text
 * @param {boolean} isSent
 * @param {Headers} read
 */
const passedOver = (text, isSent, read) => text.split('\n').forEach((row, n) => {
  const name = /^(?:< ?)?\s*:?([\w-]+)\s*:/.exec(row)?.[1], line = n + 1;
  if (name === undefined && isSent && !/^$|^\s|^(?:< ?)?HTTP\//.test(row)) {
    read.left.push({ line, said: `this is no header line, and is left out: "${row.slice(0, 60)}"` });
  }
  if (name === undefined || NAMES.some(it => asciiLower(it) === asciiLower(name))) return;
  const old = /^x-(?:content-security-policy|webkit-csp)(?:-report-only)?$/i.test(name);
  const near = nearest(name, NAMES.map(asciiLower));
  const meant = NAMES.find(it => asciiLower(it) === near);
  if (old) read.left.push({ line, said: `browsers pass over ${name}: write Content-Security-Policy` });
  else if (meant) {
    read.left.push({ line, said: `browsers pass over ${name}, is it misspelt? Write ${meant}` });
  }
});

/**
 * An object, perhaps with code around it.
 * @param {string} text
 * @param {Headers} read
 */
const objects = (text, read) => {
  const options = /["'`]?\bdirectives["'`]?\s*:/.exec(text);
  if (options === null && !/^\s*[[{]/.test(text)) return false;
  let at = text.search(/\S/);
  if (options !== null && !/^\s*[[{]/.test(text)) {
    let depth = 0;
    for (at = options.index - 1; at >= 0 && (depth > 0 || text[at] !== '{'); at -= 1) {
      depth += text[at] === '}' ? 1 : text[at] === '{' ? -1 : 0;
    }
  }
  if (at < 0) return false;
  const line = lineAt(text, at);
  for (const { name, value, as } of policyPairs(readLiteral(text, at).value, line)) {
    read.lines.push(`${NAMES.find(it => asciiLower(it) === asciiLower(name))}: ${oneLine(value, line)}`);
    read.taken.push({ line, said: `read as ${as}` });
  }
  return true;
};

/**
 * Reads headers in any form that people have them in.
 * @param {string} given
 * @param {{parse?: import('./html.js').Parse, name?: string}} options `parse` makes a tree of HTML;
 * `name` is the name of the file, for errors
 * @returns {Headers}
 */
export const readHeaders = (given, { parse, name } = {}) => {
  const text = normal(given), read = /** @type {Headers} */ ({ lines: [], taken: [], left: [] });
  try {
    if (text.trim() === '') throw new ReadingError({ said: 'there is no text', write: WRITE });
    const { isSent, head, body, said } = parts(text), isPlain = !isSent && body === '';
    if (isPlain && objects(text, read)) return ended(text, read);
    read.taken.push(...said);
    named(head, isSent, read);
    passedOver(head, isSent, read);
    if (isPlain && read.lines.length === 0 && read.left.length === 0) bare(head, read);
    if (PAGE.test(body)) metas(body, read, parse);
    return ended(text, read);
  } catch (error) {
    if (!(error instanceof ReadingError) || name === undefined) throw error;
    throw error.in({ file: name });
  }
};

const WRITE = "Write a header line, as Content-Security-Policy: default-src 'self'";

/**
 * @param {string} body
 * @param {Headers} read
 * @param {import('./html.js').Parse} [parse]
 */
const metas = (body, read, parse) => {
  const line = lineAt(body, body.search(PAGE));
  if (parse === undefined) {
    read.left.push({ line, said: 'a page stands here: its meta elements are not looked at' });
    return;
  }
  for (const it of metaPolicies(parse(body))) {
    if (it.counts) read.lines.push(it.text);
    read[it.counts ? 'taken' : 'left'].push({ line: it.line ?? line, said: it.said });
  }
};

/**
 * The reading, where it took something or said why not. Other headers without a policy are a reading too.
 * @param {string} text
 * @param {Headers} read
 */
const ended = (text, read) => {
  if (read.lines.length > 0) return read;
  const rows = text.split('\n'), at = rows.findIndex(it => it.trim() !== '');
  const isKnown = read.left.length > 0 || /^\s*[[{<]/.test(text)
    || rows.every(it => /^\s*$|^(?:[<>*{}] ?)?(?:HTTP\/|:?[\w-]+\s*:)/.test(it));
  if (!isKnown) {
    throw new ReadingError({ said: 'no policy stands in this', found: rows[at], write: WRITE, line: at + 1 });
  }
  read.left.push({ line: at + 1, said: 'no policy stands in this: nothing is blocked' });
  return read;
};
