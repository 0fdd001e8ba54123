/** Why there is no answer: what the engine refused, where it stands, and what to write. */
import { itemsOf, textOfLine } from './places.js';
import { CAPABILITIES, DESTINATIONS, INLINE_TYPES, KINDS } from './requests.js';

/**
 * Where a fault stands and what to do about it. `file` is the name of the call's member, as `requests`;
 * `line`, `request` and the number of a list count from 1.
 * @typedef {{ file?: string, line?: number, request?: number, member?: string, got?: unknown,
 *   allowed?: readonly unknown[], problem: string, hint?: string }} Fault
 */

/** @typedef {{ origins: Record<string, string>, files: Record<string, string | Uint8Array> }} Given */

const CODES = /** @type {Record<number, string>} */ ({
  2: 'usage', 3: 'bad-origin', 4: 'bad-policy', 5: 'too-large', 6: 'bad-requests', 7: 'bad-proof',
  8: 'read-fault', 9: 'write-fault', 10: 'no-memory', 11: 'reporter-fault', 13: 'bad-required-policy',
  14: 'bad-words',
});

/** The one error of this library: there is no answer. */
export class Refusal extends Error {
  /**
   * @param {number} status the exit code of the program
   * @param {Fault} fault
   * @param {string} [text] what the program says
   */
  constructor(status, fault, text = '') {
    const { file, line, problem, hint } = fault, at = line === undefined ? '' : ` line ${line}`;
    super(`${file === undefined ? '' : `${file}${at}: `}${problem}${hint === undefined ? '' : `\n${hint}`}`);
    this.name = 'Refusal';
    this.status = status;
    this.code = CODES[status] ?? 'fault';
    this.text = text;
    this.problem = problem;
    this.hint = hint;
    this.file = file;
    this.line = line;
    this.request = fault.request;
    this.member = fault.member;
    this.got = fault.got;
    this.allowed = fault.allowed;
  }
}

// The engine's word for a file, and the member of a call
const FILES = /** @type {Record<string, string>} */ ({ policy: 'headers', first: 'new', second: 'old' });

/** @param {string} word */
const memberOf = word => FILES[word] ?? word;

/** @param {unknown} value */
const quoted = value => {
  const text = JSON.stringify(value) ?? 'missing';
  return text.length > 60 ? text.slice(0, 59) + '…' : text;
};

/** @param {readonly unknown[]} values */
const listed = values => values.map(quoted).join(', ');

/** @param {string | Uint8Array} content */
const textOf = content => typeof content === 'string' ? content : new TextDecoder().decode(content);

/** @param {string} text */
const valueOf = text => {
  try {
    return JSON.parse(text);
  } catch {
    return undefined;
  }
};

/** @param {string} text */
const originOf = text => {
  try {
    return new URL(text).origin;
  } catch {
    return 'null';
  }
};

/**
 * @param {Given} given
 * @returns {Fault}
 */
const badOrigin = ({ origins }) => {
  const texts = Object.values(origins);
  const near = texts.map(originOf).find(it => /^https?:/.test(it) && !texts.includes(it));
  const hint = near ?? 'https://www.example, http://localhost:3000, or null for a page without an origin';
  return {
    problem: `no origin: ${texts.map(quoted).join(' or ')}`, got: texts.length === 1 ? texts[0] : texts,
    hint: `Write scheme and host without a path: ${hint}.`,
  };
};

const A_HEADER = "Content-Security-Policy: default-src 'self'";

// What people give in place of header lines, by the line that was refused
const HEADER_HINTS = /** @type {const} */ ([
  [/^\uFEFF/, 'Save the file as UTF-8 without a byte order mark.'],
  [/\0/, 'Save the file as UTF-8: this looks like UTF-16.'],
  [/^\s*<meta\b/i, 'Write Meta-Content-Security-Policy: and the value of its content.'],
  [/^\s*</, 'Write the header lines alone, without the page.'],
  [/^\s*(add_header|Header)\b/i, 'Write the line that the server sends: Content-Security-Policy: VALUE.'],
  [/^\s*[{["']/, `Write header lines, as ${A_HEADER}.`],
  [/^HTTP\//, 'Keep one block of headers: here the next one begins.'],
  [/^\s*[a-z-]+-(src|uri|ancestors|action)\b/i,
    'Write Content-Security-Policy: before the value, all on one line.'],
]);

/**
 * @param {string} content
 * @param {string} file
 * @param {number} line
 * @returns {Fault}
 */
const badPolicy = (content, file, line) => {
  const got = textOfLine(content, line), known = HEADER_HINTS.find(([pattern]) => pattern.test(got));
  return {
    file, line, got, problem: `no header line: ${quoted(got)}`,
    hint: known?.[1] ?? `Write a name, a colon and a value on each line, as ${A_HEADER}.`,
  };
};

const FULL_URL = 'Write a URL in full, as https://b.example/x.png.';
const A_TEXT = 'Write a text.';

/** @type {Record<string, { allowed?: readonly unknown[], hint?: string }>} */
const MEMBERS = {
  object: { hint: 'Write an object, as {"kind": "eval"}.' },
  kind: { allowed: KINDS },
  destination: { allowed: DESTINATIONS },
  type: { allowed: INLINE_TYPES },
  name: { allowed: CAPABILITIES },
  'parser-inserted': { allowed: [true, false] },
  url: { hint: FULL_URL },
  urls: { hint: `${FULL_URL} urls is an array of them, and stands in place of url.` },
  response: { hint: FULL_URL },
  page: { hint: FULL_URL },
  ancestors: { hint: `Write an array. ${FULL_URL} A page without an origin is "null".` },
  redirects: { hint: 'Write a whole number, and no urls beside it.' },
  nonce: { hint: `${A_TEXT} Beside element, the nonce is one of its attributes.` },
  integrity: { hint: A_TEXT },
  source: { hint: 'Write the code as a text, or digests in its place.' },
  digests: { hint: 'Write sha256, sha384 and sha512 in lower-case hexadecimal, and no source beside them.' },
  element: { hint: 'Write {"tag": "script", "attributes": [["nonce", "r4nd0m"]]}.' },
};

// What developer tools call a destination
const SAID = /** @type {Record<string, string>} */ ({
  xhr: '', fetch: '', eventsource: '', websocket: '', ping: '', beacon: '', empty: '', connect: '',
  stylesheet: 'style', css: 'style', js: 'script', img: 'image', favicon: 'image', media: 'video',
  texttrack: 'track', subdocument: 'iframe', document: 'iframe',
});

/**
 * @param {string} content
 * @param {number} request
 * @param {string} member
 * @returns {Fault}
 */
const badMember = (content, request, member) => {
  const { line } = itemsOf(content)[request - 1] ?? {}, value = valueOf(content)?.[request - 1];
  const got = member === 'object' ? value : value?.[member], { allowed, hint } = MEMBERS[member] ?? {};
  const near = member === 'destination' ? SAID[got] : undefined;
  const hints = [
    near === undefined ? '' : `Write ${quoted(near)}.`,
    allowed === undefined ? '' : `${near === undefined ? 'Write one of' : 'All words:'} ${listed(allowed)}.`,
    hint ?? '',
  ];
  return {
    file: 'requests', line, request, member, got, allowed,
    problem: `request ${request}: ${member === 'object' ? '' : `${member} is `}${quoted(got)}`,
    hint: hints.filter(it => it !== '').join(' '),
  };
};

/** @param {string} text */
const faultOf = text => {
  try {
    JSON.parse(text);
    return undefined;
  } catch (error) {
    return /** @type {Error} */ (error).message;
  }
};

/**
 * @param {string} content
 * @returns {Fault}
 */
const notArray = content => {
  const told = { file: 'requests', hint: 'Write a JSON array of requests, as [{"kind": "eval"}].' };
  const fault = faultOf(content), items = content.trimStart().startsWith('[') ? itemsOf(content) : [];
  const at = items.findIndex(it => faultOf(it.text) !== undefined);
  if (content.trim() === '') return { ...told, problem: 'empty' };
  if (fault === undefined) {
    const isArray = Array.isArray(valueOf(content));
    return { ...told, problem: isArray ? 'not UTF-8, or nested too deeply' : 'JSON, but no array' };
  }
  if (at === -1) return { ...told, problem: `no JSON: ${fault}` };
  const { text, line } = items[at], problem = text === '' ? 'a comma too many' : `no JSON: ${faultOf(text)}`;
  return { ...told, line, request: at + 1, got: text, problem: `request ${at + 1}: ${problem}` };
};

const LIMITS = /** @type {Record<string, string>} */ ({
  bytes: 'A file has up to 8 MiB, and a proof up to 64 MiB.',
  policies: 'Headers have up to 64 policies. Keep one block of headers.',
  sources: 'Headers have up to 1,024 words after the names of directives.',
  token: 'A word of a policy has up to 4,096 bytes.',
  requests: 'A request file has up to 10,000 requests. Split it: each request is judged by itself.',
  hops: 'A request has up to 21 URLs.',
});

/**
 * The refusal that the program's output tells.
 * @param {import('./engine.js').Output} output
 * @param {Given} given
 */
export const refusalOf = ({ code, text }, given) => {
  /** @param {string} name */
  const content = name => textOf(given.files[name] ?? '');
  const [, policy, line] = /^bad policy: (.*) line (\d+)$/m.exec(text) ?? [];
  const [, request, member] = /^bad requests: request (\d+) (\S+)$/m.exec(text) ?? [];
  const [, large, what] = /^too large: (.*) (\S+)$/m.exec(text) ?? [];
  const [, proofLine] = /^bad proof: line (\d+)$/m.exec(text) ?? [];
  const [, unread] = /^read fault: (.*)$/m.exec(text) ?? [];
  /** @returns {Fault} */
  const fault = () => {
    if (code === 3) return badOrigin(given);
    if (policy !== undefined) return badPolicy(content(memberOf(policy)), memberOf(policy), Number(line));
    if (large !== undefined) return { file: memberOf(large), problem: 'too large', hint: LIMITS[what] };
    if (member !== undefined) return badMember(content('requests'), Number(request), member);
    if (code === 6) return notArray(content('requests'));
    if (proofLine !== undefined) {
      const got = textOfLine(content('proof'), Number(proofLine));
      return { file: 'proof', line: Number(proofLine), got, problem: `no line of a proof: ${quoted(got)}`,
        hint: 'Make the proof anew by compare.' };
    }
    if (unread !== undefined) return { file: memberOf(unread), problem: 'it can\'t be read' };
    if (code === 13) return { file: 'required', problem: 'not exactly one enforced policy',
      hint: 'Keep one line Content-Security-Policy: .. without a comma.' };
    return { problem: text.trim() || `the program ended with ${code}` };
  };
  return new Refusal(code, fault(), text);
};
