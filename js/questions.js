/**
 * What an attacker may try who writes markup into a page: requests of a host and code that no policy names.
 */
import { judge } from './calls.js';
import { tokensOf } from './policies.js';

/**
 * @typedef {import('./requests.js').Request} Request
 * @typedef {import('./policies.js').Policy} Policy
 * @typedef {import('./calls.js').Program} Program
 */

/**
 * What is tried. `starts` is the directive that would stop it where no other decides. One of `tries` has to
 * be allowed, and all of `needs`. `action` is done `from`, or to, some place. `runs` says that it runs what
 * the attacker wrote, `with` what it takes besides markup.
 * @typedef {{ id: string, group: Group, subject: string, action: string, from?: string, starts: string,
 *   tries: Request[], needs: Request[], runs: boolean, with?: string }} Question
 */

/**
 * @typedef {'inline' | 'script' | 'style' | 'frame' | 'object' | 'image' | 'connection' | 'form' | 'base'
 *   | 'framing' | 'named host' | 'own origin' | 'running script' | 'worker'} Group
 */

const MARKUP = 'injected markup', SCRIPT = 'a script that runs', SITE = 'a site of the attacker';

/** @type {Request} */
const SCRIPTS = { kind: 'capability', name: 'scripts' };

/** What nothing in the policies names: a host, and code. */
class Attacker {
  /**
   * @param {Program} program
   * @param {readonly Policy[]} policies
   * @param {string} origin
   */
  constructor(program, policies, origin) {
    this.tokens = tokensOf(policies);
    this.host = this.#freshHost(origin);
    this.code = this.#freshCode(program);
  }

  // A host is named by itself, and by a star above it.
  /** @param {string} origin */
  #freshHost(origin) {
    const texts = [...this.tokens, origin].map(it => it.toLowerCase());
    for (let n = 0; ; n += 1) {
      const top = ['example', 'test', 'invalid'][n] ?? `x${n}`, host = `attacker.${top}`;
      if (!texts.some(it => it.includes(host) || it.includes(`*.${top}`))) return host;
    }
  }

  // Whether a hash of the policies is that of some code, the engine says.
  /** @param {Program} program */
  #freshCode(program) {
    const hashes = this.tokens.filter(it => /^'sha/i.test(it));
    const list = ["'unsafe-hashes'", ...hashes].join(' ');
    const headers = `Content-Security-Policy: script-src ${list}; style-src ${list}`;
    for (let n = 1; ; n += 1) {
      const code = codeOf(n), requests = inlineOf(code);
      const said = hashes.length === 0 ? [] : judge(program, { origin: 'null', headers, requests });
      if (said.every(it => it.blocked)) return code;
    }
  }

  /**
   * The URLs of a scheme. A source may name all hosts, but only on one port or with one path.
   * @param {string} scheme
   * @param {string} name
   */
  urls(scheme, name) {
    if (scheme === 'data' || scheme === 'blob') return [`${scheme}:`];
    const wide = this.tokens.map(it => /^(?:[a-z][a-z0-9+.-]*:\/\/)?\*(?::(\d+))?(\/\S*)?$/i.exec(it));
    const places = wide.flatMap(it => it === null ? [] : [[it[1] ?? '', it[2] ?? '/']]);
    const urls = [['', '/'], ...places].map(([port, path]) =>
      `${scheme}://${this.host}${port === '' ? '' : `:${port}`}${path}${path.endsWith('/') ? name : ''}`);
    return [...new Set(urls.filter(it => isUrl(it)))];
  }
}

/** @param {string} text */
const isUrl = text => {
  try {
    return new URL(text).host !== '';
  } catch {
    return false;
  }
};

/** @param {number} n */
const codeOf = n => ({ script: `alert(${n})`, style: `* { order: ${n} }` });

/**
 * @param {{ script: string, style: string }} code
 * @returns {Request[]}
 */
const inlineOf = ({ script, style }) => [
  { kind: 'inline', type: 'script', source: script },
  { kind: 'inline', type: 'script-attribute', source: script },
  { kind: 'inline', type: 'navigation', source: `javascript:${script}` },
  { kind: 'inline', type: 'style', source: style },
  { kind: 'inline', type: 'style-attribute', source: style },
];

const INLINE = /** @type {const} */ ([
  ['inline script', 'run a <script> of its own', 'script-src'],
  ['event handler', 'run an event handler, as <img onerror>', 'script-src'],
  ['javascript: URL', 'run a javascript: URL, as <iframe src>', 'script-src'],
  ['inline style', 'apply a <style> of its own', 'style-src'],
  ['style attribute', 'apply a style attribute', 'style-src'],
]);

/**
 * @param {Attacker} attacker
 * @returns {Question[]}
 */
const inline = ({ code }) => inlineOf(code).map((request, n) => {
  const [id, action, starts] = INLINE[n], runs = starts === 'script-src';
  return {
    id, group: 'inline', subject: MARKUP, action, starts, tries: [request],
    needs: runs ? [SCRIPTS] : [], runs,
  };
});

// The destination of a request, what loads it, and the file's name
const LOADED = /** @type {const} */ ([
  ['script', 'load and run a script', 'script-src', 'x.js', 'script'],
  ['style', 'load a style sheet', 'style-src', 'x.css', 'style'],
  ['iframe', 'show a frame', 'frame-src', 'x.html', 'frame'],
  ['object', 'load an <object> or <embed>', 'object-src', 'x.pdf', 'object'],
  ['image', 'load an image', 'img-src', 'x.png', 'image'],
]);
const SCHEMES = ['https', 'http', 'data', 'blob'];

/** @param {string} scheme */
const from = scheme => scheme === 'data' || scheme === 'blob' ? `from a ${scheme}: URL`
  : `from any host over ${scheme}`;

/**
 * @param {Attacker} attacker
 * @returns {Question[]}
 */
const loads = attacker => LOADED.flatMap(([destination, action, starts, name, group]) => {
  const runs = destination === 'script', inserted = runs ? { 'parser-inserted': true } : {};
  return SCHEMES.map(scheme => ({
    id: `${group} ${scheme}:`, group, subject: MARKUP, action, from: from(scheme), starts,
    tries: attacker.urls(scheme, name).map(url => ({ kind: 'fetch', destination, url, ...inserted })),
    needs: runs ? [SCRIPTS] : [], runs,
    ...scheme === 'blob' ? { with: 'a blob: URL that a script of the page made' } : {},
  }));
});

/**
 * @param {Attacker} attacker
 * @returns {Question[]}
 */
const connections = attacker => [...SCHEMES, 'wss', 'ws'].map(scheme => ({
  id: `connection ${scheme}:`, group: 'connection', subject: SCRIPT, starts: 'connect-src',
  ...scheme === 'data' || scheme === 'blob' ? { action: 'fetch', from: from(scheme) }
    : { action: 'send data', from: `to any host over ${scheme}` },
  tries: attacker.urls(scheme, 'x').map(url => ({ kind: 'fetch', destination: '', url })), needs: [SCRIPTS],
  runs: false,
}));

/**
 * @param {Attacker} attacker
 * @returns {Question[]}
 */
const places = attacker => ['https', 'http'].flatMap(scheme => [
  /** @type {Question} */ ({
    id: `form ${scheme}:`, group: 'form', subject: MARKUP, starts: 'form-action',
    action: 'send a form', from: `to any host over ${scheme}`, runs: false,
    tries: attacker.urls(scheme, 'x').map(url => ({ kind: 'form', url })),
    needs: [{ kind: 'capability', name: 'forms' }],
  }), {
    id: `base ${scheme}:`, group: 'base', subject: MARKUP, starts: 'base-uri',
    action: 'move the page\'s relative URLs, by <base>,', from: `to any host over ${scheme}`, runs: false,
    tries: attacker.urls(scheme, '').map(url => ({ kind: 'base', url })), needs: [],
  }, {
    id: `framing ${scheme}:`, group: 'framing', subject: SITE, starts: 'frame-ancestors',
    action: 'show this page in a frame', from: `from any host over ${scheme}`, runs: false,
    tries: attacker.urls(scheme, '').map(url => ({ kind: 'ancestors', ancestors: [url] })), needs: [],
  },
]);

/** @type {Question} */
const OPAQUE_FRAMING = {
  id: 'framing null', group: 'framing', subject: SITE, action: 'show this page in a frame',
  from: 'from a page without an origin',
  starts: 'frame-ancestors', tries: [{ kind: 'ancestors', ancestors: ['null'] }], needs: [], runs: false,
};

/**
 * @param {string} url
 * @returns {Request}
 */
const scriptOf = url => ({ kind: 'fetch', destination: 'script', url, 'parser-inserted': true });

const SOURCE = /^(?:(https?|wss?):\/\/)?((?:\*\.)?[a-z0-9-]+(?:\.[a-z0-9-]+)*)(?::(\d+|\*))?(\/\S*)?$/i;

/**
 * A URL that a source matches, or none: of a star its first host, of a folder a file in it.
 * @param {string} token
 * @param {string} origin
 */
const urlOf = (token, origin) => {
  const source = SOURCE.exec(token);
  if (source === null) return [];
  const [, scheme = /^https?(?=:)/.exec(origin)?.[0] ?? 'https', host, port = '*', path = '/'] = source;
  const at = host.replace(/^\*/, 'any') + (port === '*' ? '' : `:${port}`);
  const file = path.endsWith('/') ? `${path}x.js` : path;
  const url = `${scheme.toLowerCase().replace(/^ws/, 'http')}://${at.toLowerCase()}${file}`;
  return isUrl(url) ? [url] : [];
};

/**
 * @param {readonly Policy[]} policies
 * @param {string} origin
 * @returns {Question[]}
 */
const named = (policies, origin) => {
  const names = ['script-src-elem', 'script-src', 'default-src'];
  const directives = policies.flatMap(it => it.directives).filter(it => names.includes(it.name));
  const urls = new Set(directives.flatMap(it => it.values).flatMap(it => urlOf(it, origin)));
  const own = origin === 'null' ? [] : [`${origin}/upload/x.js`];
  return [...own, ...urls].map(url => {
    const isOwn = url === own[0], { host } = new URL(url);
    return {
      id: isOwn ? 'own script' : `script ${url}`, group: isOwn ? 'own origin' : 'named host', subject: MARKUP,
      action: isOwn ? 'run a file of the page\'s own origin' : 'run a script of a host that the policy names',
      from: isOwn ? 'as an upload' : `as ${url}`,
      starts: 'script-src', tries: [scriptOf(url)], needs: [SCRIPTS], runs: true,
      with: `a file of the attacker's on ${host}`,
    };
  });
};

/**
 * @param {Attacker} attacker
 * @returns {Question[]}
 */
const running = attacker => [
  { id: 'eval', action: 'run a string as script, by eval', tries: [{ kind: 'eval' }] },
  { id: 'WebAssembly', action: 'compile WebAssembly', tries: [{ kind: 'wasm' }] },
  ...SCHEMES.map(scheme => ({
    id: `added script ${scheme}:`, action: 'add a script', from: from(scheme),
    tries: attacker.urls(scheme, 'x.js').map(url => ({ ...scriptOf(url), 'parser-inserted': false })),
  })),
].map(it => /** @type {Question} */ ({
  ...it, group: 'running script', subject: SCRIPT, starts: 'script-src', needs: [SCRIPTS], runs: false,
}));

/**
 * @param {string} origin
 * @returns {Question[]}
 */
const workers = origin => {
  const own = origin === 'null' ? [] : [['own', "from the page's own origin", `${origin}/upload/x.js`]];
  const places = [...own, ...['data:', 'blob:'].map(it => [it, `from a ${it} URL`, it])];
  return places.map(([name, from, url]) => ({
    id: `worker ${name}`, group: 'worker', subject: SCRIPT, action: 'start a worker', from,
    starts: 'worker-src', tries: [{ kind: 'fetch', destination: 'worker', url }],
    needs: [{ kind: 'worker-start' }], runs: false,
  }));
};

/**
 * All that is tried against these headers.
 * @param {Program} program
 * @param {{ origin: string, policies: readonly Policy[] }} given
 * @returns {Question[]}
 */
export const questionsOf = (program, { origin, policies }) => {
  const attacker = new Attacker(program, policies, origin);
  return [
    ...inline(attacker), ...loads(attacker), ...named(policies, origin), ...connections(attacker),
    ...places(attacker), OPAQUE_FRAMING, ...running(attacker), ...workers(origin),
  ];
};
