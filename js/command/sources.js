/** The files that stand for pages: recordings, HTML, requests, folders, and what browsers say. */
import { readdirSync, statSync } from 'node:fs';
import { basename, extname, join } from 'node:path';
import { ReadingError } from '../readers/error.js';
import { readEvents } from '../readers/events.js';
import { kindOf, readSite } from '../readers/site.js';
import { refusalOfReading } from './headers.js';
import { read } from './files.js';
import { htmlParser } from './parser.js';

/** @typedef {import('../readers/site.js').Site} Site */
/** @typedef {import('../readers/site.js').File & { path: string, bytes: Uint8Array }} Source */

// What is read of a folder, by the ends of names
const READ = /\.(?:har|x?html?|json|headers|txt|conf|log)$/i;
const BAD_REQUESTS = 6;

/**
 * The paths of the files in a folder and below it, in the order of their names.
 * @param {string} folder
 * @param {string} below
 * @returns {string[]}
 */
const filesIn = (folder, below = '') => readdirSync(join(folder, below), { withFileTypes: true })
  .sort((a, b) => a.name < b.name ? -1 : 1)
  .filter(it => !it.name.startsWith('.') && it.name !== 'node_modules')
  .flatMap(it => {
    const name = below === '' ? it.name : `${below}/${it.name}`;
    return it.isDirectory() ? filesIn(folder, name) : [name];
  });

/** @param {string} path */
const isFolder = path => path !== '-' && (statSync(path, { throwIfNoEntry: false })?.isDirectory() ?? false);

/**
 * @param {string} name
 * @param {string} path
 * @returns {Source}
 */
const sourceAt = (name, path) => {
  const bytes = read(path, path);
  return { name, path, bytes, text: bytes.toString() };
};

/**
 * What stands under the paths that were given, and what in folders was passed over.
 * @param {string[]} paths
 */
export const sourcesOf = paths => {
  const files = /** @type {Source[]} */ ([]), passed = /** @type {{ file: string, said: string }[]} */ ([]);
  for (const path of paths) {
    if (!isFolder(path)) {
      files.push(sourceAt(basename(path), path));
      continue;
    }
    const all = filesIn(path), known = all.filter(it => READ.test(it));
    const others = all.filter(it => !READ.test(it));
    files.push(...known.map(name => sourceAt(name, join(path, name))));
    const ends = [...new Set(others.map(it => extname(it) || it))].join(', ');
    if (others.length > 0) passed.push({ file: path, said: `files of other kinds (${ends}): not looked at` });
  }
  return { files, passed };
};

/** @param {Source[]} files whether they are one request file, which the engine reads as it is */
export const isRequestFile = files =>
  files.length === 1 && ['requests', undefined].includes(kindOf(files[0]));

/**
 * The address of the one page of HTML, which the option tells as it is.
 * @param {Source[]} files
 * @param {string} [url]
 */
const addressed = (files, url) => {
  const pages = files.filter(it => kindOf(it) === 'html');
  if (url === undefined || pages.length !== 1 || pages[0].name !== basename(pages[0].path)) return files;
  return files.map(it => it === pages[0] ? { ...it, url } : it);
};

/**
 * The pages that stand in files.
 * @param {{ files: Source[], passed: { file: string, said: string }[] }} sources
 * @param {{ name: string, text: string }[]} events files of what browsers say
 * @param {{ url?: string, origin?: string, lines?: string[] }} options the address of the HTML, the origin
 * of a request file, and the header lines that stand for those of all pages
 * @returns {Promise<Site>}
 */
export const siteOf = async ({ files, passed }, events, { url, origin, lines }) => {
  const needsParser = files.some(it => ['har', 'html'].includes(kindOf(it) ?? ''));
  const parse = needsParser ? await htmlParser() : () => { throw new Error('no HTML was there'); };
  const base = url ?? (origin === undefined || origin === 'null' ? '' : `${origin}/`);
  try {
    const site = readSite(addressed(files, url), { parse, base, lines, origin });
    if (site.pages.length === 0) throw new ReadingError({ said: NO_PAGES, write: WRITE });
    const told = events.map(({ name, text }) => ({ file: name, ...readEvents(text) }));
    return { ...site, events: [...site.events, ...told], left: [...site.left, ...passed] };
  } catch (error) {
    const file = error instanceof ReadingError ? error.told.file : undefined;
    throw refusalOfReading(error, BAD_REQUESTS, files.find(it => it.name === file)?.path);
  }
};

const NO_PAGES = 'no page stands in these files';
const WRITE = 'Give a HAR, an HTML file with --url, a folder of them, or a request file';
