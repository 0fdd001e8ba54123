// Violation reports that a collector received, of any number: bodies of report-uri and report-to, in
// whatever form logs hold them. Memory doesn't grow with the stream.
import { Pieces, parsed } from './pieces.js';
import { blockedBy, isBody, noiseOf, violationOf } from './violations.js';

/**
 * @typedef {import('./violations.js').Violation} Violation
 * @typedef {{violation: Violation, line: number}} Row a violation and the line in which its report begins
 * @typedef {AsyncIterable<Uint8Array | string> | Iterable<Uint8Array | string>} Chunks
 */

const DEEPEST = 6; // objects and texts in each other, in which a report is looked for

/**
 * @param {unknown} it
 * @returns {it is Record<string, unknown>}
 */
const isObject = it => typeof it === 'object' && it !== null && !Array.isArray(it);

/** @param {string} text JSON in a text, or in base64 */
const inText = text => {
  if (/^\s*[[{]/.test(text)) return parsed(text)?.value;
  if (!/^[A-Za-z0-9+/\s]{20,}={0,2}\s*$/.test(text)) return undefined;
  try {
    return parsed(new TextDecoder().decode(Uint8Array.from(atob(text), it => it.charCodeAt(0))))?.value;
  } catch {
    return undefined;
  }
};

/**
 * The reports in a value, however a collector has wrapped them: the body of a violation, or the type of a
 * report of something else.
 * @param {unknown} value
 * @param {number} [depth]
 * @returns {Generator<{body?: Record<string, any>, other?: string}>}
 */
function* reportsIn(value, depth = 0) {
  if (depth > DEEPEST) return;
  if (typeof value === 'string') yield* reportsIn(inText(value), depth + 1);
  else if (Array.isArray(value)) for (const it of value) yield* reportsIn(it, depth + 1);
  else if (isObject(value)) {
    const { type, body, url } = value, report = value['csp-report'];
    if (isBody(report)) yield { body: report };
    else if (isBody(value)) yield { body: value };
    else if (type === 'csp-violation' && isBody(body)) yield { body };
    else if (typeof type === 'string' && isObject(body) && typeof url === 'string') yield { other: type };
    else for (const it of Object.values(value)) yield* reportsIn(it, depth + 1);
  }
}

/**
 * The text of a stream, unpacked where it is gzip.
 * @param {Chunks} chunks
 * @returns {AsyncGenerator<string>}
 */
async function* textOf(chunks) {
  const all = (async function* () { yield* chunks; })(), { value: first, done } = await all.next();
  if (done) return;
  const isPacked = typeof first !== 'string' && first[0] === 0x1f && first[1] === 0x8b;
  const decoder = new TextDecoder(), bytes = (async function* () { yield first; yield* all; })();
  for await (const it of isPacked ? unpacked(bytes) : bytes) {
    yield typeof it === 'string' ? it : decoder.decode(it, { stream: true });
  }
  yield decoder.decode();
}

/**
 * @param {AsyncGenerator<Uint8Array | string>} bytes
 * @returns {AsyncGenerator<Uint8Array>}
 */
async function* unpacked(bytes) {
  const packed = new ReadableStream({
    pull: async controller => {
      const { value, done } = await bytes.next();
      if (done) controller.close();
      else controller.enqueue(value);
    },
  });
  const { DecompressionStream } = /** @type {any} */ (globalThis);
  const reader = packed.pipeThrough(new DecompressionStream('gzip')).getReader();
  for (let { value, done } = await reader.read(); !done; { value, done } = await reader.read()) yield value;
}

/** @param {Map<string, number>} counts @param {string} name */
const count = (counts, name) => counts.set(name, (counts.get(name) ?? 0) + 1);

/** Reads a stream of reports: iterate over it for the violations, and then ask what else was in it. */
export class Reports {
  /** @param {Chunks} chunks */
  constructor(chunks) {
    this.chunks = chunks;
    this.pieces = new Pieces();
    this.violations = 0;
    this.noise = /** @type {Map<string, number>} by scheme */ (new Map());
    this.others = /** @type {Map<string, number>} by type of report */ (new Map());
    this.strange = 0; // values in which no report stands
    this.strangeLines = /** @type {number[]} */ ([]);
    this.broken = /** @type {string | undefined} */ (undefined);
  }

  /** @returns {AsyncGenerator<Row>} */
  async* [Symbol.asyncIterator]() {
    try {
      let isFirst = true;
      for await (const text of textOf(this.chunks)) {
        yield* this.rows(isFirst ? text.replace(/^\uFEFF/, '') : text, false);
        isFirst = isFirst && text === '';
      }
    } catch (error) {
      this.broken = error instanceof Error ? error.message : String(error);
    }
    yield* this.rows('\n', true);
  }

  /**
   * @param {string} text
   * @param {boolean} isLast
   */
  * rows(text, isLast) {
    for (const { line, value } of this.pieces.take(text, isLast)) {
      let isAny = false;
      for (const { body, other } of reportsIn(value)) {
        isAny = true;
        if (other !== undefined) count(this.others, other);
        else if (body !== undefined) yield* this.row(violationOf(body), line);
      }
      if (isAny || Array.isArray(value) && value.length === 0) continue;
      this.strange += 1;
      if (this.strangeLines.length < 10) this.strangeLines.push(line);
    }
  }

  /**
   * @param {Violation} violation
   * @param {number} line
   * @returns {Generator<Row>}
   */
  * row(violation, line) {
    const scheme = noiseOf(violation);
    if (scheme !== undefined) count(this.noise, scheme);
    else {
      this.violations += 1;
      yield { violation, line };
    }
  }

  /** Whether all that was there was read as reports, and some was. */
  get isWhole() {
    return this.pieces.bad + this.strange === 0 && this.broken === undefined && !this.isEmpty;
  }

  /** Whether no report stood in it. */
  get isEmpty() {
    return this.violations + this.noise.size + this.others.size === 0;
  }

  /** What was left out, as sentences. */
  get left() {
    const list = (/** @type {Map<string, number>} */ counts) =>
      [...counts].map(([name, n]) => `${name} ${n}`).join(', ');
    const { pieces: { bad, badLines }, strange, strangeLines, noise, others, broken } = this;
    const lines = badLines.map(it => `line ${it.line} ("${it.found}")`).join(', ');
    const where = strangeLines.join(', ');
    return [
      ...bad > 0 ? [`lines that are no JSON, left out: ${bad}, as ${lines}`] : [],
      ...strange > 0 ? [`values in which no report stands, left out: ${strange}, as in line ${where}`] : [],
      ...broken === undefined ? [] : [`the stream breaks off, and what follows is not looked at: ${broken}`],
      ...noise.size > 0 ? [`reports of browsers and their extensions, set apart: ${list(noise)}`] : [],
      ...others.size > 0 ? [`reports of other types, left out: ${list(others)}`] : [],
      ...this.isEmpty ? ['no report stands in this: it says nothing of what is blocked'] : [],
    ];
  }
}

/**
 * @typedef {object} Group violations that are alike
 * @property {Violation} violation the first of them
 * @property {number} count
 * @property {Set<string>} pages the URLs of their pages, the first twenty
 */

const TEXTS = "code and styles in a page, whose texts aren't reported, taken for ones without a hash";
const SCRIPTS = "scripts taken for not parser-inserted, of which that isn't reported";

/** Counts violations that are alike, of at most so many kinds. */
export class Tally {
  /** @param {number} [most] */
  constructor(most = 10_000) {
    this.most = most;
    this.groups = /** @type {Map<string, Group>} */ (new Map());
    this.beyond = 0; // violations of further kinds
  }

  /** @param {Violation} violation */
  add(violation) {
    const { directive, blocked, disposition, policy, file, line, column, sample, page } = violation;
    const isInline = !blocked.includes(':'), place = isInline && file === '' ? page : file;
    const name = [directive, blocked, disposition, policy, place, line, column, sample].join('\0');
    const group = this.groups.get(name) ?? { violation, count: 0, pages: new Set() };
    if (group.count === 0 && this.groups.size === this.most) {
      this.beyond += 1;
      return;
    }
    group.count += 1;
    if (group.pages.size < 20) group.pages.add(page);
    this.groups.set(name, group);
  }

  /**
   * The groups with the requests that were blocked, the most frequent first, and what isn't known of
   * them.
   */
  ended() {
    const all = [...this.groups.values()].sort((a, b) => b.count - a.count)
      .map(it => ({ ...it, ...blockedBy(it.violation) }));
    const counted = (/** @type {(it: typeof all[0]) => unknown} */ is) =>
      all.filter(is).reduce((sum, it) => sum + it.count, 0);
    const texts = counted(it => it.unknown === 'text'), scripts = counted(it => it.unknown === 'parser');
    const reasons = [...new Set(all.flatMap(it => it.leftOut ?? []))];
    return {
      groups: all.filter(it => it.request !== undefined),
      left: [
        ...reasons.map(why => `left out, since ${why}: ${counted(it => it.leftOut === why)}`),
        ...texts > 0 ? [`${TEXTS}: ${texts}`] : [], ...scripts > 0 ? [`${SCRIPTS}: ${scripts}`] : [],
        ...this.beyond > 0
          ? [`violations of further kinds than ${this.most}, not looked at: ${this.beyond}`] : [],
      ],
    };
  }
}
