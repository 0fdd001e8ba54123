/** What stands in the files that a proposal is made from: pages, and what browsers say of violations. */
import { readEvents } from '../readers/events.js';
import { Reports, Tally } from '../readers/reports.js';
import { kindOf } from '../readers/site.js';
import { siteOf } from './sources.js';

/**
 * @typedef {import('./sources.js').Source} Source
 * @typedef {{ file?: string, line?: number, said: string }} Said
 */

const BEGIN = 1 << 16, CHUNK = 1 << 20;
const REPORT = /"(?:csp-report|csp-violation|effective-?directive|violated-?directive)"/i;

/** @param {Source} source whether collectors or browsers wrote it */
const kindOfViolations = source => {
  const kind = kindOf(source), { name, text } = source;
  if (kind === 'events' || kind === 'reports') return kind;
  const isLog = kind === undefined && REPORT.test(text.slice(0, BEGIN));
  return isLog || /\.gz$/i.test(name) ? 'reports' : undefined;
};

/** @param {Uint8Array} bytes in pieces that a text can hold */
function* chunksOf(bytes) {
  for (let at = 0; at < bytes.length; at += CHUNK) yield bytes.subarray(at, at + CHUNK);
}

/**
 * The violations that files tell of, those that are alike together.
 * @param {Source[]} sources
 */
const violationsIn = async sources => {
  const tally = new Tally(), left = /** @type {Said[]} */ ([]);
  for (const source of sources) {
    const { name: file } = source;
    if (kindOfViolations(source) === 'events') {
      const events = readEvents(source.text);
      for (const { violation } of events.rows) tally.add(violation);
      left.push(...events.left.map(it => ({ file, ...it })), ...events.unseen.map(said => ({ file, said })));
      continue;
    }
    const reports = new Reports(chunksOf(source.bytes));
    for await (const { violation } of reports) tally.add(violation);
    left.push(...reports.left.map(said => ({ file, said })));
  }
  const ended = tally.ended();
  return { reports: ended.groups, left: [...left, ...ended.left.map(said => ({ said }))] };
};

/**
 * The pages and violations in files.
 * @param {{ files: Source[], passed: { file: string, said: string }[] }} sources
 * @param {string} [url] the address of the pages of HTML
 */
export const givenIn = async ({ files, passed }, url) => {
  const telling = files.filter(it => kindOfViolations(it) !== undefined);
  const others = files.filter(it => !telling.includes(it)), { reports, left } = await violationsIn(telling);
  const site = others.length === 0 ? { pages: [], left: passed }
    : await siteOf({ files: others, passed }, [], { url });
  return { pages: site.pages, reports, left: [...site.left, ...left] };
};
