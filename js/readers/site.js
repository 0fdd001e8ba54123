// Many pages at once: recordings, pages of HTML, request files and headers, of files or folders, become one
// list of pages. One header may stand for all of them, or each page has its own.
import { ReadingError } from './error.js';
import { readEvents } from './events.js';
import { readHar } from './har.js';
import { readHeaders } from './headers.js';
import { readHtml } from './html.js';
import { urlOf } from './urls.js';

/**
 * @typedef {import('./html.js').Page} Page
 * @typedef {import('./html.js').Piece} Piece
 * @typedef {import('./html.js').Said} Said
 * @typedef {object} File
 * @property {string} name the path of the file below the folder that was given
 * @property {string} text what it holds
 * @property {string} [url] the address of its page, where it isn't that of the folder and the name
 * @typedef {Page & Partial<import('./har.js').Recorded> & {file: string, text?: string}} SitePage `text`
 * is what a request file holds
 * @typedef {object} Site
 * @property {SitePage[]} pages
 * @property {({file: string} & import('./events.js').Events)[]} events what browsers say themselves
 * @property {{file: string, line?: number, said: string}[]} left what was left out, or is known only in
 * part
 * @typedef {object} Question what the engine is asked in one call
 * @property {string} origin
 * @property {string} policy the header block
 * @property {Piece[]} pieces whose requests are asked about
 * @property {string} [text] the request file, where the pieces are of one
 */

const MOST_REQUESTS = 10_000, MOST_LENGTH = 4_000_000; // of the engine, and half of what it reads in one file

const CONSOLE = new RegExp([
  /violates the following (?:report-only )?content security policy directive/,
  /content-security-policy: .*because it violates the following directive/,
].map(it => it.source).join('|'), 'i');
const EVENT = ['effectiveDirective', 'violatedDirective', 'blockedURI'];

/**
 * What a JSON array holds, by its first item.
 * @param {string} text
 */
const kindOfArray = text => {
  try {
    const [first] = JSON.parse(text);
    if (EVENT.some(it => typeof first?.[it] === 'string')) return 'events';
    return first?.['csp-report'] !== undefined || first?.body !== undefined ? 'reports' : 'requests';
  } catch {
    return 'requests';
  }
};

/**
 * What a file is, by its content; a name that tells nothing doesn't matter.
 * @param {Pick<File, 'name' | 'text'>} file
 * @returns {'har' | 'html' | 'headers' | 'requests' | 'events' | 'reports' | undefined}
 */
export const kindOf = ({ name, text }) => {
  const plain = text.replace(/^\uFEFF/, '').trimStart(), begin = plain.slice(0, 4096);
  if (/\.har$/i.test(name) || /^\{\s*"log"\s*:/.test(begin)) return 'har';
  if (/\.x?html?$/i.test(name) || /^<(?:!doctype|html|head|body|meta)\b/i.test(begin)) return 'html';
  if (/^\[(?!report only\])/i.test(begin)) return kindOfArray(plain);
  if (/^\{.*"csp-report"|^\{.*"csp-violation"/.test(begin)) return 'reports';
  if (!begin.startsWith('{') && CONSOLE.test(plain)) return 'events';
  if (/\.(?:headers|txt|conf)$/i.test(name)) return 'headers';
  return undefined;
};

/**
 * The address of a page of HTML in a folder: that of its file below the address of the site.
 * @param {string} name
 * @param {string} base
 */
const addressOf = (name, base) => {
  const path = name.split(/[\\/]/).map(encodeURIComponent).join('/').replace(/(^|\/)index\.x?html?$/i, '$1');
  const url = urlOf(path, base);
  if (url !== undefined) return url.href;
  const write = 'Give the address of the folder, as https://www.example/';
  const said = 'pages of HTML need the address at which they are served';
  throw new ReadingError({ said, found: base, write });
};

/**
 * @param {string} name the name of the headers that belong to a file of HTML: `index.html` and
 * `index.html.headers`
 */
const withoutEnd = name => name.replace(/\.(?:headers|txt|conf)$/i, '');

/** The pages of many files, gathered one file after the other. */
class Gathering {
  /**
   * @param {File[]} files
   * @param {Options} options
   */
  constructor(files, { parse, base = '', lines, origin }) {
    this.options = { parse, base, lines, origin };
    this.site = /** @type {Site} */ ({ pages: [], events: [], left: [] });
    this.used = new Set();
    this.own = new Map(files.filter(it => kindOf(it) === 'headers')
      .map(({ name, text }) => [withoutEnd(name), { name, ...readHeaders(text, { parse, name }) }]));
  }

  /**
   * @param {string} file
   * @param {Said[]} left
   */
  say(file, left) {
    this.site.left.push(...left.map(it => ({ file, ...it })));
  }

  /**
   * @param {'har' | 'html' | 'requests' | 'events' | 'reports'} kind
   * @param {File} file
   */
  take(kind, file) {
    try {
      this[kind](file);
    } catch (error) {
      throw error instanceof ReadingError ? error.in({ file: file.name }) : error;
    }
  }

  /** @param {File} file */
  har({ name, text }) {
    const { parse, lines } = this.options, { pages, left } = readHar(text, { parse, name });
    this.site.pages.push(...pages.map(it => withLines({ ...it, file: name }, lines)));
    this.say(name, left);
  }

  /** @param {File} file */
  html({ name, text, url }) {
    const headers = this.own.get(name), { parse, base, lines } = this.options;
    this.used.add(name);
    const given = { url: url ?? addressOf(name, base), parse, lines: lines ?? headers?.lines ?? [] };
    this.site.pages.push({ ...readHtml(text, given), file: name });
    this.say(name, headers?.left ?? []);
    if (lines === undefined && headers === undefined) this.say(name, [{ said: NO_HEADERS }]);
  }

  /** @param {File} file */
  requests({ name, text }) {
    const { lines, origin } = this.options, of = { file: name };
    const write = (/** @type {string} */ what) => `Give the ${what} of the page, as --${what}`;
    if (origin === undefined) throw new ReadingError({ ...of, said: NO_PAGE, write: write('origin') });
    if (lines === undefined) throw new ReadingError({ ...of, said: NO_PAGE, write: write('headers') });
    this.site.pages.push({
      file: name, url: '', origin, lines, meta: [], taken: [], left: [], unseen: [], text,
      pieces: itemsOf(text).map((request, n) => ({ request, meta: [], said: `request ${n + 1}` })),
    });
  }

  /** @param {File} file */
  events({ name, text }) {
    this.site.events.push({ file: name, ...readEvents(text) });
  }

  /** @param {File} file */
  reports({ name }) {
    this.say(name, [{ said: 'reports that browsers sent: left out, since guidecerise reports reads them' }]);
  }

  /** What belongs to no page. */
  ended() {
    for (const [name, headers] of this.own) {
      if (this.used.has(name)) continue;
      this.say(headers.name, [{ said: `headers of ${name}, which isn't there: left out` }]);
    }
    return this.site;
  }
}

/**
 * @param {string} text
 * @returns {any[]}
 */
const itemsOf = text => {
  try {
    const value = JSON.parse(text);
    return Array.isArray(value) ? value : [];
  } catch {
    return []; // the engine says what is wrong
  }
};

/**
 * @typedef {object} Options
 * @property {import('./html.js').Parse} parse what makes a tree of HTML
 * @property {string} [base] the address of the folder, for pages of HTML
 * @property {string[]} [lines] header lines that stand for those of all pages
 * @property {string} [origin] the origin of the page, for request files
 */

/**
 * Reads many files as the pages of a site.
 * @param {File[]} files
 * @param {Options} options
 * @returns {Site}
 */
export const readSite = (files, options) => {
  const gathering = new Gathering(files, options);
  for (const file of files) {
    const kind = kindOf(file);
    if (kind === undefined) gathering.say(file.name, [{ said: UNKNOWN }]);
    else if (kind !== 'headers') gathering.take(kind, file);
  }
  return gathering.ended();
};

const UNKNOWN = 'neither a HAR nor HTML nor headers: left out';
const NO_PAGE = 'a request file names neither its page nor its headers';
const NO_HEADERS = 'no headers were given for this page: only its meta elements count';

/**
 * A page under another header. Frames and workers keep their own, since the header of a page doesn't
 * stand for theirs.
 * @param {SitePage & {role?: string}} page
 * @param {string[]} [lines]
 * @returns {SitePage}
 */
const withLines = (page, lines) => lines === undefined || page.role !== 'page' ? page : { ...page, lines };

/**
 * What the engine has to be asked of a page: a call for each list of policies that pieces of it are
 * under, and no more requests in a call than it reads.
 * @param {Pick<SitePage, 'origin' | 'lines' | 'pieces' | 'text'>} page
 * @returns {Question[]}
 */
export const questionsOf = ({ origin, lines, pieces, text }) => {
  if (text !== undefined) return [{ origin, policy: lines.map(it => `${it}\n`).join(''), pieces, text }];
  const open = /** @type {Map<string, Question & {length: number}>} */ (new Map()), all = [];
  for (const piece of pieces) {
    const policy = [...lines, ...piece.meta].map(it => `${it}\n`).join('');
    const { length } = JSON.stringify(piece.request);
    let question = open.get(policy);
    if (!question || question.pieces.length === MOST_REQUESTS || question.length + length > MOST_LENGTH) {
      question = { origin, policy, pieces: [], length: 0 };
      open.set(policy, question);
      all.push(question);
    }
    question.pieces.push(piece);
    question.length += length;
  }
  return all.map(({ length, ...question }) => question);
};
