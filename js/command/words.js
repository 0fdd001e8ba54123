/** The words of the command: what each takes, whom it asks, and how its answer is told. */
import * as calls from '../index.js';
import { tellAudit } from './audited.js';
import {
  tellCheck, tellComparison, tellDifferences, tellEmbedding, tellLearnt, tellRelations, tellTidied,
} from './compared.js';
import { tellReasons, tellReports, tellVerdicts } from './judged.js';
import { runPropose } from './proposed.js';
import { tellReading } from './reading.js';
import { judgeSite, learnSite, reportSite, whySite } from './sites.js';
import { proofsOf, tellWeakening } from './weakened.js';

/**
 * What was asked: the origins, of each file its name and what the engine is given of it, of each header
 * file the line of its first policy, and what is wanted of the answer.
 * @typedef {{ program: calls.Program, origin: string, embedder: string, names: Record<string, string>,
 *   contents: Record<string, string | Uint8Array>, lines: Record<string, number>,
 *   text: (member: string) => string, options: { all: boolean }, page: import('./page.js').Page }} Asked
 */

/**
 * @typedef {{ rule: string, level: 'error' | 'warning', file: string, line: number, message: string
 *   }} Finding
 */

/**
 * What a person is told: what comes first, lines, a sentence with its colour, warnings, what the answer
 * covers, what was not looked at, and what to do.
 * @typedef {{ first?: string, lines: string[], mood: 'red' | 'yellow' | 'green', sentence: string,
 *   warnings: string[], covers: string, unseen?: string[], steps?: string[], status: number,
 *   findings: () => Finding[] }} Told
 */

/**
 * A word: its summary, the members of its call in their order, those that may be left out, whom it asks,
 * how the answer is told, whether it finds something that has a file and a line, what is told of the pages
 * of a site where files of other forms stand for requests, and which files keep the proof of an answer. A
 * word with `files`, which tells of them, reads them by `run`.
 * @typedef {{ word: string, summary: string, members: string[], optional?: string[], files?: string,
 *   ask?: (program: calls.Program, given: any) => any, tell?: (answer: any, asked: Asked) => Told,
 *   finds?: boolean, ofSite?: import('./sites.js').OfSite, run?: typeof runPropose,
 *   proofs?: (answer: any, path: string) => [string, string | Uint8Array][] }} Word
 */

/** @type {Word[]} */
export const WORDS = [
  {
    word: 'judge', summary: 'which requests the headers block, and by which directive', finds: true,
    members: ['origin', 'headers', 'requests'], ask: calls.judge, tell: tellVerdicts,
    ofSite: judgeSite,
  }, {
    word: 'why', summary: 'the same, and which word allows a request, or nearly does', finds: true,
    members: ['origin', 'headers', 'requests'], ask: calls.why, tell: tellReasons,
    ofSite: whySite,
  }, {
    word: 'report', summary: 'what a browser would report of the requests',
    members: ['origin', 'headers', 'requests'], ask: calls.report, tell: tellReports,
    ofSite: reportSite,
  }, {
    word: 'reports', summary: 'what browsers sent as violation reports, counted', members: ['reports'],
    optional: ['headers'],
  }, {
    word: 'requests', summary: 'the requests that stand in recordings and pages, as JSON',
    members: ['requests'],
  }, {
    word: 'audit', summary: 'what an attacker could do who writes markup into the page', finds: true,
    members: ['origin', 'headers'], ask: calls.audit, tell: tellAudit,
  }, {
    word: 'weaker', summary: 'whether new headers are weaker, with what no proof covers',
    finds: true, members: ['origin', 'new', 'old'], ask: calls.weaker, tell: tellWeakening, proofs: proofsOf,
  }, {
    word: 'compare', summary: 'whether new headers are weaker than old ones; if not, a proof', finds: true,
    members: ['origin', 'new', 'old'], ask: calls.compare, tell: tellComparison,
    proofs: ({ proof }, path) => proof === undefined ? [] : [[path, proof]],
  }, {
    word: 'differ', summary: 'each directive under which the new headers are weaker', finds: true,
    members: ['origin', 'new', 'old'], ask: calls.differ, tell: tellDifferences,
  }, {
    word: 'check', summary: 'whether such a proof is right',
    members: ['origin', 'new', 'old', 'proof'], ask: calls.check, tell: tellCheck,
  }, {
    word: 'embed', summary: 'whether who requires a policy of a frame may show a response',
    members: ['embedder', 'origin', 'required', 'response'], ask: calls.embed, tell: tellEmbedding,
  }, {
    word: 'tidy', summary: 'shorter headers that allow the same',
    members: ['origin', 'headers'], ask: calls.tidy, tell: tellTidied,
  }, {
    word: 'learn', summary: 'a first policy, which allows what the requests load',
    members: ['origin', 'requests'], ask: calls.learn, tell: tellLearnt,
    ofSite: learnSite,
  }, {
    word: 'propose', summary: 'a policy for pages, recordings and reports',
    files: 'HARs, HTML, reports, lines of a console, and folders of these',
    members: ['requests'], optional: ['headers'], run: runPropose,
  }, {
    word: 'read', summary: 'how headers are read, and what browsers drop of them',
    members: ['origin', 'headers'], ask: calls.read, tell: tellReading,
  }, {
    word: 'order', summary: 'which of 2 to 16 headers are weaker than which',
    members: ['origin', 'lists'], ask: calls.order, tell: tellRelations,
  },
];

/** The members that are said on the command line; all others are files. */
export const ORIGINS = ['origin', 'embedder'];

/** What each member is. */
export const MEMBERS = /** @type {Record<string, string>} */ ({
  origin: 'the origin of the page, as https://www.example, or null',
  embedder: 'the origin of the page that frames the response',
  headers: 'header lines, a value, a line of a configuration, or a HAR',
  requests: 'HARs, HTML, folders, or a JSON array of what the page loads and runs',
  reports: 'logs of report bodies, as JSON in any form, or as gzip',
  new: 'the new headers, as HEADERS of judge',
  old: 'the old headers, likewise',
  proof: 'a proof, as compare --save-proof writes it',
  required: 'the header line that the embedder requires',
  response: 'the header lines of the response',
  lists: 'files of header lines; each is compared with each',
});
