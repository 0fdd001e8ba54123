/**
 * Checks a proof that one list of policies is at least as strict as another, without the proved engine.
 *
 * It is written from docs/PROOF-FORMAT.md and docs/RULES.md and shares no code with the engine, so that a
 * yes of the engine can be believed by more than its maker. It is plain and slow.
 *
 * @typedef {{ enforced: boolean, directives: Directive[] }} Policy
 * @typedef {{ name: string, sources: Source[] } & Record<'words' | 'nonces' | 'hashes', string[]>} Directive
 * @typedef {{ kind: string, value: string, scheme?: string, port?: string, path?: string }} Source
 * @typedef {{ scheme: string, host: string, port: string } | null} Page where a default port is empty
 * @typedef {{ effective: string, rule: 'url' | 'script' | 'style' | 'inline' | 'words', scheme?: string,
 *   redirected?: boolean, inserted?: boolean, element?: boolean, needs?: string[][] }} Shape
 * @typedef {boolean | string | { all: Sentence[] } | { any: Sentence[] } | { not: Sentence }} Sentence
 * @typedef {{ atom: string, holds: boolean }} Literal
 * @typedef {{ line: number, atom?: string, blocked?: number }} Node without atom and number it is `met`
 * @typedef {{ line: number, shape: number, policy: number, nodes: Node[], same?: number }} Tree
 * @typedef {{ trees: Tree[], end: number }} Proof
 */

/** What docs/LIMITS.md allows. */
const MOST = { bytes: 8_388_608, proof: 67_108_864, policies: 64, sources: 1024, token: 4096 };

/**
 * Says of a proof what `csp check ORIGIN NEW OLD PROOF` says: that it is accepted, the first line that is
 * rejected, or the first line that makes it no proof. The first line of an error is that command's message.
 * The platform reads the origin, so that an `xn--` label that isn't Punycode makes it a bad one here.
 * @param {{ origin: string } & Record<'new' | 'old' | 'proof', string | Uint8Array>} question
 * @returns {{ accepted: true } | { rejected: number } | { bad: number }}
 */
export function checkProof(question) {
  const page = pageOf(question.origin);
  const first = policiesOf('first', question.new);
  const second = policiesOf('second', question.old);
  const proof = proofOf(textOf('proof', question.proof, MOST.proof));
  if ('bad' in proof) return proof;
  const rejected = firstFailure(proof, first, second, page);
  return rejected === undefined ? { accepted: true } : { rejected };
}

// RULES.md, "URLs, hosts and origins" and "Policies and header blocks"

/** @param {string} origin @returns {Page} null for an opaque one */
function pageOf(origin) {
  if (origin === 'null') return null;
  try {
    const { href, protocol, host, hostname, port } = new URL(origin);
    const scheme = protocol.slice(0, -1);
    if (/^https?$/.test(scheme) && href === `${scheme}://${host}/`) return { scheme, host: hostname, port };
  } catch { /* it is no URL */ }
  throw new Error(`bad origin\n${origin}: write an origin as https://www.example, or null`);
}

/** @param {string} file @param {string | Uint8Array} content @param {number} most bytes, a character each */
function textOf(file, content, most) {
  const bytes = typeof content === 'string' ? new TextEncoder().encode(content) : content;
  limit(bytes.length, most, `${file} bytes`);
  return new TextDecoder('latin1').decode(bytes);
}

/** @param {number} found @param {number} most @param {string} what */
function limit(found, most, what) {
  if (found > most) throw new Error(`too large: ${what}\n${found}: give at most ${most}`);
}

/** @param {string} file @param {string | Uint8Array} content */
function policiesOf(file, content) {
  const policies = textOf(file, content, MOST.bytes).split('\n').flatMap((text, place) => {
    const line = text.replace(/\r$/, '');
    if (line === '' || (place === 0 && line.startsWith('HTTP/'))) return [];
    const header = /^([A-Za-z0-9!#$%&'*+.^_`|~-]{1,65535}):([^\x00-\x08\x0a-\x1f\x7f]*)$/.exec(line);
    if (header) return policiesOfHeader(header[1].toLowerCase(), header[2]);
    throw new Error(`bad policy: ${file} line ${place + 1}\n${line}: write a header as NAME: VALUE`);
  });
  const directives = policies.flatMap((policy) => policy.directives);
  const texts = directives.flatMap(({ name, words }) => [name, ...words]);
  limit(policies.length, MOST.policies, `${file} policies`);
  limit(texts.length - directives.length, MOST.sources, `${file} sources`);
  for (const text of texts) limit(text.length, MOST.token, `${file} token`);
  return policies;
}

/** @param {string} name @param {string} value @returns {Policy[]} */
function policiesOfHeader(name, value) {
  const isMeta = name === 'meta-content-security-policy';
  if (!isMeta && !/^content-security-policy(-report-only)?$/.test(name)) return [];
  return (isMeta ? [value] : value.split(',')).map((text) => ({
    enforced: !name.endsWith('-report-only'),
    directives: directivesOf(text, isMeta ? ['report-uri', 'frame-ancestors', 'sandbox'] : []),
  })).filter((policy) => policy.directives.length > 0);
}

/** @param {string} policy @param {string[]} dropped names of directives */
function directivesOf(policy, dropped) {
  /** @type {Map<string, Directive>} */
  const directives = new Map();
  for (const piece of policy.split(';').filter((it) => /^[\x00-\x7f]*$/.test(it))) {
    const [first = '', ...tokens] = piece.split(/[\t ]+/).filter((it) => it !== '');
    const name = first.toLowerCase();
    if (name === '' || dropped.includes(name) || directives.has(name)) continue;
    const sources = tokens.map((it) => sourceOf(it.length > MOST.token ? '' : it)); // that is refused later
    const nonces = sources.filter((it) => it.kind === 'nonce').map((it) => `nonce-is ${it.value}`);
    const hashes = sources.filter((it) => it.kind.startsWith('sha')).map((it) => `${it.kind} ${it.value}`);
    directives.set(name, { name, words: tokens.map((it) => it.toLowerCase()), sources, nonces, hashes });
  }
  return [...directives.values()];
}

// RULES.md, "Source expressions" and "URLs, hosts and origins"

const SCHEME = '[a-z][a-z0-9+.-]*';
const VALUE = '[A-Za-z0-9+/_-]+={0,2}';
const HOST = '\\*|(?:\\*\\.)?[a-z0-9-]+(?:\\.[a-z0-9-]+)*\\.?';
const LETTER = "(?:[a-z0-9._~!$&'()*+=:@-]|%[0-9a-f]{2})";
const PATH = `/(?:${LETTER}+(?:/${LETTER}*)*)?`;
const HOST_SOURCE = new RegExp(`^(?:(${SCHEME})://)?(${HOST})(?::(\\d+|\\*))?(${PATH})?$`, 'i');
const QUOTED = new RegExp(`^'(nonce|sha256|sha384|sha512)-(${VALUE})'$`, 'i');

/** @param {string} token @returns {Source} whose value is the host, the scheme, or what stands in quotes */
function sourceOf(token) {
  const small = token.toLowerCase();
  if (small === '*' || small === "'self'") return { kind: small, value: '' };
  if (new RegExp(`^${SCHEME}:$`).test(small)) return { kind: 'scheme', value: small.slice(0, -1) };
  const [, word, value] = QUOTED.exec(token) ?? [];
  if (word !== undefined) return { kind: word.toLowerCase(), value };
  const [, scheme, host, port, path] = HOST_SOURCE.exec(token) ?? [];
  if (host === undefined) return { kind: 'none', value: '' };
  const rest = { scheme: scheme?.toLowerCase(), port, path: path && spelled(path) };
  return { kind: 'host', value: host.toLowerCase(), ...rest };
}

/** What no path of a proof has: other characters, other escapes, and escapes of those that need none. */
const MISSPELLED = /[^A-Za-z0-9._~%\/-]|%(?![0-9A-F]{2})|%(2[DE]|3\d|[46][1-9A-F]|5[0-9AF]|7[0-9AE])/;
/** @param {string} path @returns {string} its one spelling in a proof */
const spelled = (path) => path.replace(/%[0-9A-Fa-f]{2}|[^/]/g, (part) => {
  const code = part.length === 3 ? parseInt(part.slice(1), 16) : part.charCodeAt(0);
  const letter = String.fromCharCode(code);
  return /[A-Za-z0-9._~-]/.test(letter) ? letter : `%${code.toString(16).toUpperCase().padStart(2, '0')}`;
});
/** @param {string} path */
const hasDots = (path) => /\/\.\.?(\/|$)/.test(path);
/** @param {string} text @param {number} most */
const isNumber = (text, most) => /^(0|[1-9]\d*)$/.test(text) && Number(text) <= most;

/** @param {string} host */
const isDomain = (host) => /^[!"$&-.0-9;=_`a-z{}~]+$/.test(host)
  && !/(^|\.)(\d+|0x[0-9a-f]*)\.?$/.test(host);

/** @param {string} host */
const isHost = (host) => isDomain(host) || /^\[[0-9a-f:]+\]$/.test(host)
  || (host.split('.', 5).length === 4 && host.split('.').every((number) => isNumber(number, 255)));

/** @param {string} hash @returns {string[]} the atom of the digest that it stands for, if it does */
function digestsOf(hash) {
  const [algorithm, value] = hash.split(' ');
  const text = value.replaceAll('-', '+').replaceAll('_', '/');
  const size = Number(algorithm.slice(3)) / 8;
  const bytes = text.length === 4 * Math.ceil(size / 3) ? atob(text) : '';
  if (bytes.length !== size || btoa(bytes) !== text) return [];
  const codes = Array.from(bytes, (byte) => byte.charCodeAt(0).toString(16).padStart(2, '0'));
  return [`digest-is ${algorithm} ${codes.join('')}`];
}

// PROOF-FORMAT.md, "The text"

/** @param {string} text @returns {Proof | { bad: number }} */
function proofOf(text) {
  const lines = text.split('\n');
  const ended = lines.length - 1;
  if (ended === 0 || !/^csp-proof [12]$/.test(lines[0])) return { bad: 1 };
  /** @type {Tree[]} */
  const trees = [];
  let missing = 0; // nodes of the last tree
  for (let line = 2; line <= ended; line += 1) {
    const [words, tree] = [lines[line - 1], trees[trees.length - 1]];
    if (missing === 0 && words === 'end') {
      return line === ended && lines[line] === '' ? { trees, end: line } : { bad: line + 1 };
    } else if (missing === 0) {
      const [shape, policy] = numbersOf(words, 'tree', 188, 63);
      if (shape === undefined) return { bad: line };
      trees.push({ line, shape, policy, nodes: [] });
      missing = 1;
    } else if (words.startsWith('same ')) {
      const other = trees[numbersOf(words, 'same', trees.length - 2)[0]];
      if (lines[0] !== 'csp-proof 2' || tree.nodes.length > 0 || !other || other.same) return { bad: line };
      Object.assign(tree, { nodes: other.nodes, same: line });
      missing = 0;
    } else {
      const [blocked] = numbersOf(words, 'blocked', 63);
      const atom = words.startsWith('split ') ? words.slice(6) : undefined;
      const isNode = atom === undefined ? words === 'met' || blocked !== undefined : isAtom(atom);
      if (!isNode) return { bad: line };
      tree.nodes.push({ line, atom, blocked });
      missing += atom === undefined ? -1 : 1;
    }
  }
  return { bad: lines.length };
}

/** @param {string} line @param {string} word @param {number[]} most @returns {number[]} where it is so */
function numbersOf(line, word, ...most) {
  const [found, ...numbers] = line.split(' ');
  if (found !== word || numbers.length !== most.length) return [];
  return numbers.every((it, place) => isNumber(it, most[place])) ? numbers.map(Number) : [];
}

/** @param {string} atom */
function isAtom(atom) {
  const [kind, value = ''] = atom.split(/ (.*)/s);
  switch (kind) {
    case 'host-domain': case 'integrity-outside': return atom === kind;
    case 'host-is': return isHost(value);
    case 'host-under': return isDomain(value);
    case 'port-is': return isNumber(value, 65535);
    case 'path-is': case 'path-under':
      return value.startsWith('/') && !MISSPELLED.test(value) && !hasDots(value);
    case 'scheme-is': return new RegExp(`^${SCHEME}$`).test(value) && !PORTS.has(value);
    case 'nonce-is': return new RegExp(`^${VALUE}$`).test(value);
    case 'integrity-has': return new RegExp(`^sha(256|384|512) ${VALUE}$`).test(value);
    case 'digest-is': return /^sha(256 [0-9a-f]{64}|384 [0-9a-f]{96}|512 [0-9a-f]{128})$/.test(value);
    default: return false;
  }
}

// PROOF-FORMAT.md, "Shapes"; RULES.md, "Which directive governs"

const PORTS = new Map([['http', '80'], ['https', '443'], ['ws', '80'], ['wss', '443'], ['ftp', '21']]);

/** @param {string} effective @param {Shape['rule']} rule @param {boolean} [inserted] @returns {Shape[]} */
const withUrls = (effective, rule, inserted) => [...PORTS.keys(), undefined].flatMap((scheme) =>
  [false, true].map((redirected) => ({ effective, rule, scheme, redirected, inserted })));
/** @param {string} effective @param {string[][]} needs a word of each of these @returns {Shape} */
const withWords = (effective, ...needs) => ({ effective, rule: 'words', needs });

/** @type {Shape[]} a scheme that is none of the five is left out */
const SHAPES = [
  ...['connect-src', 'font-src', 'frame-src', 'img-src', 'manifest-src', 'media-src', 'object-src'].flatMap(
    (effective) => withUrls(effective, 'url')),
  ...withUrls('style-src-elem', 'style'),
  ...withUrls('script-src-elem', 'script', false), ...withUrls('script-src-elem', 'script', true),
  ...withUrls('worker-src', 'url', false), ...withUrls('worker-src', 'url', true),
  ...withUrls('form-action', 'url'),
  ...withUrls('base-uri', 'url').filter((shape) => !shape.redirected),
  ...withUrls('frame-ancestors', 'url').filter((shape) => !shape.redirected),
  withWords('frame-ancestors', []), // no word allows an opaque ancestor
  { effective: 'script-src-elem', rule: 'inline', element: true },
  { effective: 'script-src-attr', rule: 'inline' },
  { effective: 'style-src-elem', rule: 'inline', element: true },
  { effective: 'style-src-attr', rule: 'inline' },
  { effective: 'script-src-elem', rule: 'inline' },
  withWords('script-src', ["'unsafe-eval'"]),
  withWords('script-src', ["'unsafe-eval'", "'wasm-unsafe-eval'"]),
  ...['forms', 'scripts', 'same-origin', 'popups', 'popups-to-escape-sandbox', 'top-navigation',
    'top-navigation-by-user-activation', 'modals', 'pointer-lock', 'orientation-lock', 'presentation',
    'downloads',
  ].map((it) => withWords('sandbox', [`allow-${it}`, `allow-${it.replace('-by-user-activation', '')}`])),
  withWords('sandbox', ['allow-scripts'], ['allow-same-origin']),
];

/** @param {string} effective @returns {string[]} the names of which the first that a policy has governs */
function governors(effective) {
  if (/^(script|style)-src-/.test(effective)) return [effective, effective.slice(0, -5), 'default-src'];
  if (effective === 'frame-src') return [effective, 'child-src', 'default-src'];
  if (effective === 'worker-src') return [effective, 'child-src', 'script-src', 'default-src'];
  return effective.endsWith('-src') ? [effective, 'default-src'] : [effective];
}

// PROOF-FORMAT.md, "What a policy says of a shape"

/** @param {Policy} policy @param {Shape} shape @param {Page} page @param {string[]} vocabulary */
function sentenceOf(policy, shape, page, vocabulary) {
  const found = governors(shape.effective).map((name) => policy.directives.find((it) => it.name === name));
  const governing = found.find((it) => it !== undefined);
  if (!governing) return true;
  const { name, words, sources, nonces, hashes } = governing;
  const listed = sources.map((source) => urlSentence(source, shape, page));
  const reached = words.includes("'strict-dynamic'") ? [!shape.inserted] : listed;
  const rest = vocabulary.filter((it) => !hashes.includes(it)).map((it) => ({ not: `integrity-has ${it}` }));
  const integrity = { all: [{ not: 'integrity-outside' }, ...rest,
    { any: hashes.map((it) => `integrity-has ${it}`) }] };
  switch (shape.effective === 'worker-src' && name === 'script-src' ? 'script' : shape.rule) {
    case 'script': return { any: [...nonces, integrity, ...reached] };
    case 'style': return { any: [...nonces, ...listed] };
    case 'inline': return inlineSentence(governing, shape);
    case 'words': return (shape.needs ?? []).every((needed) => needed.some((word) => words.includes(word)));
    default: return { any: listed };
  }
}

/** @param {Directive} directive @param {Shape} shape @returns {Sentence} */
function inlineSentence({ words, nonces, hashes }, { effective, element }) {
  const isDynamic = words.includes("'strict-dynamic'") && !effective.startsWith('style-');
  if (words.includes("'unsafe-inline'") && nonces.length + hashes.length === 0 && !isDynamic) return true;
  const digests = element || words.includes("'unsafe-hashes'") ? hashes.flatMap(digestsOf) : [];
  return { any: [...(element ? nonces : []), ...digests] };
}

/** @param {Source} source @param {Shape} shape @param {Page} page @returns {Sentence} */
function urlSentence({ kind, value, scheme: own, port, path }, { scheme, redirected, effective }, page) {
  if (!scheme) return kind === 'scheme' && !PORTS.has(value) && `scheme-is ${value}`;
  if (kind === '*') return scheme !== 'ftp';
  if (kind === 'scheme') return schemeMatches(value, scheme);
  if (kind === "'self'") return selfSentence(scheme, page);
  if (kind !== 'host' || !schemeMatches(own ?? page?.scheme, scheme)) return false;
  const number = port ?? PORTS.get(scheme);
  const onPort = number === '*' || (Number(number) <= 65535 && `port-is ${Number(number)}`);
  if (path === undefined || path === '/' || redirected) return { all: [hostSentence(value), onPort] };
  if (effective === 'frame-ancestors' || hasDots(path)) return false;
  const onPath = path.endsWith('/') ? `path-under ${path.slice(0, -1)}` : `path-is ${path}`;
  return { all: [hostSentence(value), onPort, onPath] };
}

/** @param {string | undefined} source @param {string} scheme of the URL */
const schemeMatches = (source, scheme) => source === scheme
  || ['http https', 'ws wss', 'ws http', 'ws https', 'wss https'].includes(`${source} ${scheme}`);

/** @param {string} host @returns {Sentence} */
function hostSentence(host) {
  if (host === '*') return 'host-domain';
  if (host.startsWith('*.')) return isDomain(host.slice(2)) && `host-under ${host.slice(2)}`;
  return isHost(host) && `host-is ${host}`;
}

/** @param {string} scheme @param {Page} page @returns {Sentence} */
function selfSentence(scheme, page) {
  const isUpgraded = scheme === 'https' || scheme === 'wss';
  if (page === null || scheme === 'ftp' || (!isUpgraded && page.scheme !== 'http')) return false;
  const usual = PORTS.get(scheme);
  return { all: [`host-is ${page.host}`, page.port !== usual && `port-is ${page.port || usual}`] };
}

// PROOF-FORMAT.md, "What one literal says of an atom"

/** @param {string} atom of two atoms of one family, one is within the other or no check has both */
const family = (atom) => /^(integrity.*|digest-is \w+|[a-z]+)/.exec(atom)?.[0];

/** @param {string} atom @param {string} other @returns {boolean} whether all that has it has the other */
function isWithin(atom, other) {
  const [kind, value] = atom.split(/ (.*)/s);
  const [wider, end] = other.split(/ (.*)/s);
  switch (`${kind} ${wider}`) {
    case 'host-is host-domain': return isDomain(value);
    case 'host-is host-under': return isDomain(value) && value.endsWith(`.${end}`);
    case 'host-under host-domain': return true;
    case 'host-under host-under': return `.${value}`.endsWith(`.${end}`);
    case 'path-is path-under': return value.startsWith(`${end}/`);
    case 'path-under path-under': return `${value}/`.startsWith(`${end}/`);
    default: return atom === other;
  }
}

/** @param {Literal} literal @param {string} other @returns {number} 1 is true, 0 false and 1/2 nothing */
function says({ atom, holds }, other) {
  if (!holds) return isWithin(other, atom) ? 0 : 1 / 2;
  if (isWithin(atom, other)) return 1;
  return family(atom) === family(other) && !isWithin(other, atom) ? 0 : 1 / 2;
}

/** @param {Sentence} sentence @param {Literal[]} literals @returns {number} 1 is true, 0 false, else 1/2 */
function surely(sentence, literals) {
  if (typeof sentence === 'boolean') return Number(sentence);
  if (typeof sentence === 'string') {
    return literals.map((literal) => says(literal, sentence)).find((it) => it !== 1 / 2) ?? 1 / 2;
  }
  if ('not' in sentence) return 1 - surely(sentence.not, literals);
  if ('all' in sentence) return Math.min(1, ...sentence.all.map((part) => surely(part, literals)));
  return Math.max(0, ...sentence.any.map((part) => surely(part, literals)));
}

// PROOF-FORMAT.md, "What is accepted"

/** @param {Proof} proof @param {Policy[]} first @param {Policy[]} second @param {Page} page */
function firstFailure({ trees, end }, first, second, page) {
  const directives = [...first, ...second].flatMap((policy) => policy.directives);
  const vocabulary = directives.flatMap((directive) => directive.hashes);
  const enforced = [...second.keys()].filter((policy) => second[policy].enforced);
  const pairs = SHAPES.flatMap((_, shape) => enforced.map((policy) => `${shape} ${policy}`));
  for (const [place, { line, shape, policy, nodes, same }] of trees.entries()) {
    if (pairs[place] !== `${shape} ${policy}`) return line;
    const [met, ...blocking] = [second[policy], ...first].map(
      (it) => !it.enforced || sentenceOf(it, SHAPES[shape], page, vocabulary));
    const failing = firstFalseLeaf(nodes, met, blocking);
    if (failing !== undefined) return same ?? failing;
  }
  return trees.length < pairs.length ? end : undefined;
}

/** @param {Node[]} nodes @param {Sentence} met @param {Sentence[]} blocking what each policy says there */
function firstFalseLeaf(nodes, met, blocking) {
  /** @type {Literal[]} from the root on */
  const literals = [];
  for (const { line, atom, blocked } of nodes) {
    if (atom === undefined) {
      const [sentence, wanted] = blocked === undefined ? [met, 1] : [blocking[blocked] ?? true, 0];
      if (surely(sentence, literals) !== wanted) return line;
      while (literals.at(-1)?.holds === false) literals.pop();
      const turned = literals.pop();
      if (turned) literals.push({ atom: turned.atom, holds: false });
    } else literals.push({ atom, holds: true });
  }
}
