// Cuts a stream of text into JSON values: a value a line, arrays of objects on one line or many, objects
// that are printed over several lines, and log lines in which an object stands. What can't be read is
// told, and passed over.

/**
 * @typedef {{line: number, value: unknown}} Value where a value begins, counted from 1, and what it is
 * @typedef {{line: number, found: string}} Bad
 */

const QUOTE = 34, BACKSLASH = 92, OPEN = 123, CLOSE = 125, OPEN_LIST = 91, CLOSE_LIST = 93, COLON = 58;
const COMMA = 44, LINE = 10;
const LONGEST = 1 << 20; // characters of an object or a line
const DEEPEST = 64; // objects and arrays in each other
const WAITS = 1 << 16; // characters of an unfinished line that are kept until it ends

/**
 * The end of the object that begins at a place: `more` where the text ends before, `bad` where it is none.
 * @param {string} text
 * @param {number} start
 * @returns {number | 'more' | 'bad'}
 */
const endOf = (text, start) => {
  const open = /** @type {number[]} */ ([]);
  for (let at = start, last = 0; at < text.length; at += 1) {
    const code = text.charCodeAt(at);
    if (code === QUOTE) {
      for (at += 1; text.charCodeAt(at) !== QUOTE; at += 1) {
        if (at >= text.length) return 'more';
        if (text.charCodeAt(at) === LINE) return 'bad';
        if (text.charCodeAt(at) === BACKSLASH) at += 1;
      }
    } else if (code === OPEN || code === OPEN_LIST) {
      const isMember = open[open.length - 1] === OPEN;
      if (isMember && last !== COLON || open.length === DEEPEST) return 'bad';
      open.push(code);
    } else if (code === CLOSE || code === CLOSE_LIST) {
      if (open.pop() !== code - 2) return 'bad';
      if (open.length === 0) return at + 1;
    }
    if (code > 32) last = code;
  }
  return 'more';
};

/** @param {string} text the value of a JSON text, or nothing */
export const parsed = text => {
  try {
    return { value: /** @type {unknown} */ (JSON.parse(text)) };
  } catch {
    return undefined;
  }
};

/**
 * The object that stands in a line of a log. nginx writes quotes as \x22.
 * @param {string} line
 */
const embedded = line => {
  const text = line.slice(line.indexOf('{'), line.lastIndexOf('}') + 1);
  if (text === '') return undefined;
  const plain = text.replace(/\\x([0-9A-Fa-f]{2})/g, (_, code) => String.fromCharCode(parseInt(code, 16)));
  return parsed(text) ?? parsed(plain);
};

export class Pieces {
  constructor() {
    this.text = '';
    this.at = 0;
    this.line = 1;
    this.newline = -1;
    this.isLineStart = true;
    this.isSkipping = false; // the rest of the line
    this.bad = 0;
    this.badLines = /** @type {Bad[]} */ ([]);
  }

  /**
   * The values that end in the text that was given so far.
   * @param {string} text more of it
   * @param {boolean} isLast whether it ends here
   * @returns {Generator<Value>}
   */
  * take(text, isLast) {
    this.text = this.text.slice(this.at) + text;
    this.at = 0;
    this.newline = -1;
    while (this.at < this.text.length) {
      const start = this.at, found = this.next(isLast);
      if (found !== undefined) yield found;
      else if (this.at === start) return;
    }
  }

  /** The place behind the present line, or -1 where its end isn't known. */
  lineEnd() {
    if (this.newline < this.at) {
      const at = this.text.indexOf('\n', this.at);
      this.newline = at < 0 ? Infinity : at;
    }
    return this.newline === Infinity ? -1 : this.newline + 1;
  }

  /** @param {number} to passes over the text to a place */
  move(to) {
    for (let end = this.lineEnd(); end >= 0 && end <= to; end = this.lineEnd()) {
      this.line += 1;
      this.at = end;
    }
    this.isLineStart = this.text.charCodeAt(to - 1) === LINE;
    this.at = to;
  }

  /**
   * @param {number} end passes over a line that can't be read
   * @returns {undefined}
   */
  refuse(end) {
    this.bad += 1;
    const [found] = this.text.slice(this.at, this.at + 60).split('\n');
    if (this.badLines.length < 10) this.badLines.push({ line: this.line, found });
    this.isSkipping = end < 0;
    this.move(end < 0 ? this.text.length : end);
    return undefined;
  }

  /**
   * One step: a value, or nothing. Where nothing was passed over either, more text is needed.
   * @param {boolean} isLast
   * @returns {Value | undefined}
   */
  next(isLast) {
    const end = this.lineEnd(), size = this.text.length - this.at;
    const stop = end >= 0 ? end : isLast ? this.text.length : -1;
    if (this.isSkipping) {
      this.isSkipping = end < 0;
      this.move(end < 0 ? this.text.length : end);
      return undefined;
    }
    const first = this.text.charCodeAt(this.at);
    const isBetween = first <= 32 || first === COMMA || first === CLOSE_LIST;
    if (isBetween || !this.isLineStart && first !== OPEN) return this.pass(stop);
    if (stop < 0 && size < WAITS) return undefined;
    if (this.isLineStart && stop >= 0) {
      const line = this.line, whole = parsed(this.text.slice(this.at, stop));
      if (whole !== undefined) {
        this.move(stop);
        return { line, ...whole };
      }
    }
    return first === OPEN_LIST || first === OPEN ? this.object(stop, isLast) : this.logLine(stop, size);
  }

  /**
   * Passes over what stands between values: white space, commas, brackets, and the rest of a log line.
   * @param {number} stop
   */
  pass(stop) {
    const found = /[^\s,[\]]|\n/g;
    found.lastIndex = this.at;
    const at = found.exec(this.text)?.index ?? this.text.length, code = this.text.charCodeAt(at);
    if (at > this.at) this.move(at);
    else if (code === LINE) this.move(at + 1);
    else this.move(stop < 0 ? this.text.length : stop);
    return undefined;
  }

  /**
   * @param {number} stop
   * @param {boolean} isLast
   */
  object(stop, isLast) {
    if (this.text.charCodeAt(this.at) === OPEN_LIST) return this.pass(stop);
    const { line } = this, end = endOf(this.text, this.at), size = this.text.length - this.at;
    if (end === 'more' && !isLast && size < LONGEST) return undefined;
    const value = typeof end === 'number' ? parsed(this.text.slice(this.at, end)) : undefined;
    if (value === undefined || typeof end !== 'number') return this.refuse(stop);
    this.move(end);
    return { line, ...value };
  }

  /**
   * @param {number} stop
   * @param {number} size
   */
  logLine(stop, size) {
    const { line } = this, found = stop < 0 ? undefined : embedded(this.text.slice(this.at, stop));
    if (stop < 0 && size < LONGEST) return undefined;
    if (found === undefined) return this.refuse(stop);
    this.move(stop);
    return { line, ...found };
  }
}
