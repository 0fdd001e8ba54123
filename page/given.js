/** What was given, in any form: headers, pages, recordings, reports, requests; and what it was taken for. */
import { readHeaders } from '../js/readers/headers.js';
// Not the browser's parser: it tells neither lines nor attributes that stand twice, and Chromium holds what it parses
// against the page's own policy.
import { parseHtml } from '../js/readers/parse5.js';
import { kindOf, readSite } from '../js/readers/site.js';
import { counted } from './answer.js';

/**
 * @typedef {import('../js/readers/site.js').Site} Site
 * @typedef {import('./reading.js').Reading} Reading
 * @typedef {'har' | 'html' | 'requests' | 'events' | 'reports'} Kind
 * @typedef {{ kind: 'headers', text: string } | { kind: 'file', file: Omit<File, 'id'> }} Taken
 */

/**
 * The fields and files as they stand. `id` is of the file as it stands: another text makes it another file.
 * @typedef {{ id: number, name: string, kind: Kind, text: string, blob?: Blob, url?: string }} File
 * @typedef {{ headers: string, newer: string, origin: string, files: File[] }} Raw
 */

const REPORT = /"(?:csp-report|csp-violation|effective-?directive|violated-?directive)"/i;
const BEGIN = 1 << 16;
const META_ALONE = /^\s*(?:<meta\b[^>]*>\s*)+$/i;

/**
 * @param {string} name
 * @param {string} text
 * @returns {Kind | 'headers'}
 */
const kindIn = (name, text) => {
  const kind = kindOf({ name, text }), begin = text.slice(0, BEGIN);
  if (kind === 'html' && META_ALONE.test(text)) return 'headers';
  const isHeaders = /content-security-policy/i.test(begin) && !/"kind"/.test(begin);
  if (kind === 'requests' && isHeaders) return 'headers';
  if (kind !== undefined) return kind;
  if (/\.gz$/i.test(name) || REPORT.test(begin)) return 'reports';
  return /^\s*\{[^]*"kind"/.test(begin) ? 'requests' : 'headers';
};

/**
 * What a text is taken for. Of a response with its body, the body is a page.
 * @param {{ name: string, text: string, blob?: Blob }} given
 * @returns {Taken[]}
 */
export const takenFor = ({ name, text, blob = new Blob([text]) }) => {
  const kind = kindIn(name, text);
  if (kind === 'reports') return [{ kind: 'file', file: { name, kind, text: '', blob } }];
  if (kind !== 'headers') {
    const whole = kind === 'requests' && /^\s*\{/.test(text) ? `[${text}]` : text;
    return [{ kind: 'file', file: { name, kind, text: whole } }];
  }
  const body = /^\s*(?:<\s)?HTTP\//.test(text) ? /<!doctype html|<html\b/i.exec(text)?.index : undefined;
  if (body === undefined) return [{ kind: 'headers', text }];
  const page = /** @type {const} */ ({ name: '', kind: 'html', text: text.slice(body) });
  return [{ kind: 'headers', text: text.slice(0, body) }, { kind: 'file', file: page }];
};

/**
 * What stands in a text as headers; nothing in an empty one.
 * @param {string} text
 * @returns {import('../js/readers/headers.js').Headers}
 */
export const headersIn = text =>
  text.trim() === '' ? { lines: [], taken: [], left: [] } : readHeaders(text, { parse: parseHtml });

const sites = /** @type {Map<string, Site>} */ (new Map());

/**
 * @param {string} key
 * @param {() => Site} read
 */
const remembered = (key, read) => {
  const found = sites.get(key) ?? read();
  if (sites.size > 50) sites.clear();
  sites.set(key, found);
  return found;
};

/** All that was given. */
export class Given {
  /** @param {Raw} raw */
  constructor({ headers, newer, origin, files }) {
    this.headers = headers;
    this.newer = newer;
    this.origin = origin;
    this.files = files;
  }

  /** The header lines that stand for those of all pages, or nothing. */
  get lines() {
    return this.headers.trim() === '' ? undefined : headersIn(this.headers).lines;
  }

  /**
   * The pages that stand in a file. A recording is read once, whatever the headers are.
   * @param {File} file
   * @returns {Site}
   */
  siteOf(file) {
    const { lines, origin } = this, { kind, url, id } = file, isHar = kind === 'har';
    const given = isHar ? undefined : lines ?? (kind === 'requests' ? [] : undefined);
    const base = `${origin === 'null' ? 'https://page.invalid' : origin}/`;
    const key = JSON.stringify([id, given, isHar ? '' : origin, url]);
    const site = remembered(key, () => readSite([file], { parse: parseHtml, base, origin, lines: given }));
    if (!isHar || lines === undefined) return site;
    return { ...site, pages: site.pages.map(it => it.role === 'page' ? { ...it, lines } : it) };
  }

  /** @returns {Site} */
  get site() {
    const all = this.files.filter(it => it.kind !== 'reports').map(it => this.siteOf(it));
    const pages = all.flatMap(it => it.pages), events = all.flatMap(it => it.events);
    return { pages, events, left: all.flatMap(it => it.left) };
  }

  get logs() {
    const logs = this.files.filter(it => it.kind === 'reports');
    return logs.map(({ name, blob }) => ({ name, content: blob ?? '' }));
  }

  /**
   * The headers of the pages, each once, with what was left of the field.
   * @returns {{ origin: string, reading: Reading }[]}
   */
  get subjects() {
    const { left } = headersIn(this.headers);
    const pages = this.site.pages.filter(it => (it.role ?? 'page') === 'page' && it.url !== '');
    const all = pages.map(({ url, origin, lines, meta }) =>
      ({ origin, reading: { name: url, lines: [...lines, ...meta], left } }));
    const keyOf = (/** @type {typeof all[0]} */ it) => [it.origin, ...it.reading.lines].join('\n');
    const distinct = all.filter((it, n) => all.findIndex(other => keyOf(other) === keyOf(it)) === n);
    return distinct.length > 0 ? distinct
      : [{ origin: this.origin, reading: { name: 'the headers', lines: this.lines ?? [], left } }];
  }
}

/**
 * What a file was taken for, in a person's words.
 * @param {Given} given
 * @param {File} file
 */
const describedAs = (given, file) => {
  const size = Math.ceil((file.blob?.size ?? 0) / 1024);
  if (file.kind === 'reports') return `reports, ${counted(size, 'kilobyte')}`;
  const { pages, events } = given.siteOf(file), pieces = pages.reduce((sum, it) => sum + it.pieces.length, 0);
  const violations = events.reduce((sum, it) => sum + it.rows.length, 0);
  if (file.kind === 'events') return `${counted(violations, 'violation')} that a browser tells of`;
  if (file.kind === 'requests') return counted(pieces, 'request');
  if (file.kind === 'html') return `HTML of a page, ${counted(pieces, 'request')}`;
  const count = (/** @type {string} */ role) => pages.filter(it => it.role === role).length;
  const roles = ['page', 'frame', 'worker'].flatMap(it => count(it) > 0 ? [counted(count(it), it)] : []);
  return `a recording (HAR) of ${roles.join(', ')}, ${counted(pieces, 'request')}`;
};

/**
 * @template T
 * @param {() => T} read
 * @returns {{ read: T } | { fault: string }}
 */
const tried = read => {
  try {
    return { read: read() };
  } catch (error) {
    return { fault: error instanceof Error ? error.message : String(error) };
  }
};

/**
 * What is said of each field and file, and whose headers there are.
 * @param {Raw} raw
 */
export const described = raw => {
  const given = new Given(raw), subjects = tried(() => given.subjects.map(it => it.reading.name));
  return {
    headers: tried(() => headersIn(raw.headers).taken), newer: tried(() => headersIn(raw.newer).taken),
    files: raw.files.map(file => ({ id: file.id, ...tried(() => describedAs(given, file)) })),
    subjects: 'read' in subjects ? subjects.read : [],
  };
};
