/** The word requests, and reports --ndjson: what was read, as the engine's own requests. */
import { once } from 'node:events';
import { blockedBy } from '../readers/violations.js';
import { NOT_ALL_READ, streamsOf } from './reported.js';

/** @typedef {import('../readers/html.js').Piece} Piece */

const AT_ONCE = 1000;

/**
 * A request file, or a request a line.
 * @param {Piece[]} pieces
 * @param {boolean} isNdjson
 */
export const requestsText = (pieces, isNdjson) => {
  const lines = pieces.map(it => JSON.stringify(it.request));
  return isNdjson ? lines.map(it => `${it}\n`).join('') : `[\n${lines.join(',\n')}\n]\n`;
};

/**
 * Writes the request of each violation as a line, in memory that doesn't grow with the reports. What has
 * no request is named on standard error.
 * @param {string[]} paths
 * @param {NodeJS.WritableStream} to
 */
export const writeRequests = async (paths, to) => {
  const out = /** @type {Map<string, number>} */ (new Map());
  let lines = /** @type {string[]} */ ([]), isWhole = true;
  const flush = async () => {
    if (!to.write(lines.join(''))) await once(to, 'drain');
    lines = [];
  };
  for (const { path, reports } of streamsOf(paths)) {
    for await (const { violation } of reports) {
      const { request, leftOut = '' } = blockedBy(violation);
      if (request === undefined) out.set(leftOut, (out.get(leftOut) ?? 0) + 1);
      else lines.push(`${JSON.stringify(request)}\n`);
      if (lines.length === AT_ONCE) await flush();
    }
    isWhole &&= reports.isWhole;
    for (const said of reports.left) process.stderr.write(`guidecerise: ${path}: ${said}\n`);
  }
  await flush();
  for (const [why, count] of out) process.stderr.write(`guidecerise: left out, since ${why}: ${count}\n`);
  return isWhole ? 0 : NOT_ALL_READ;
};
