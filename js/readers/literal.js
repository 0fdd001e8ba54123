// Reads a literal of JavaScript: objects, arrays, texts, numbers and the words true, false, null and
// undefined. JSON is such a literal. Code inside it is refused, since only running it would tell what it
// gives.
import { ReadingError, lineAt } from './error.js';

const SPACE = /(?:\s|\/\/[^\n]*|\/\*[\s\S]*?\*\/)*/y;
const TEXT = /"(?:[^"\\\n]|\\[\s\S])*"|'(?:[^'\\\n]|\\[\s\S])*'|`(?:[^`\\$]|\\[\s\S]|\$(?!\{))*`/y;
const WORD = /[\p{ID_Start}_$][\p{ID_Continue}$]*/uy;
const NUMBER = /-?\d+(?:\.\d+)?(?:[eE][-+]?\d+)?/y;
const WORDS = new Map(/** @type {[string, unknown][]} */ ([
  ['true', true], ['false', false], ['null', null], ['undefined', undefined],
]));
const ESCAPES = new Map([
  ['n', '\n'], ['t', '\t'], ['r', '\r'], ['b', '\b'], ['f', '\f'], ['v', '\v'], ['0', '\0'], ['\n', ''],
]);

/** @param {string} text */
const unescaped = text => text.slice(1, -1).replace(
  /\\(?:u([0-9a-fA-F]{4})|u\{([0-9a-fA-F]+)\}|x([0-9a-fA-F]{2})|([\s\S]))/g,
  (_, four, many, two, one) => {
    const code = four ?? many ?? two;
    return code === undefined ? ESCAPES.get(one) ?? one : String.fromCodePoint(parseInt(code, 16));
  });

class Literal {
  /**
   * @param {string} text
   * @param {number} at
   */
  constructor(text, at) {
    this.text = text;
    this.at = at;
  }

  /** @param {RegExp} pattern */
  take(pattern) {
    pattern.lastIndex = this.at;
    const found = pattern.exec(this.text)?.[0];
    if (found !== undefined) this.at += found.length;
    return found;
  }

  /** @param {string} mark */
  takes(mark) {
    this.take(SPACE);
    if (!this.text.startsWith(mark, this.at)) return false;
    this.at += mark.length;
    return true;
  }

  /**
   * @param {string} said
   * @param {string} write
   * @returns {never}
   */
  refuse(said, write) {
    const found = this.text.slice(this.at).split('\n')[0];
    throw new ReadingError({ said, found, write, line: lineAt(this.text, this.at) });
  }

  /** @returns {unknown} */
  value() {
    this.take(SPACE);
    if (this.takes('{')) return this.members();
    if (this.takes('[')) return this.elements();
    const text = this.take(TEXT);
    if (text !== undefined) return unescaped(text);
    const number = this.take(NUMBER);
    if (number !== undefined) return Number(number);
    const start = this.at, word = this.take(WORD);
    if (word !== undefined && WORDS.has(word)) return WORDS.get(word);
    this.at = start;
    return this.refuse('this is code, or no literal', 'Write the text that it gives, in quotes');
  }

  members() {
    const members = /** @type {Record<string, unknown>} */ ({});
    while (!this.takes('}')) {
      const quoted = this.take(TEXT), name = quoted === undefined ? this.take(WORD) : unescaped(quoted);
      if (name === undefined) this.refuse('a name of a member is missing here', 'Write it in quotes');
      if (!this.takes(':')) this.refuse(`a colon is missing behind ${name}`, 'Write a colon and a value');
      Object.defineProperty(members, name, { value: this.value(), enumerable: true, configurable: true });
      if (!this.takes(',') && !this.text.startsWith('}', this.at)) {
        this.refuse('a comma or a closing brace is missing here', 'Write one');
      }
    }
    return members;
  }

  elements() {
    const elements = /** @type {unknown[]} */ ([]);
    while (!this.takes(']')) {
      elements.push(this.value());
      if (!this.takes(',') && !this.text.startsWith(']', this.at)) {
        this.refuse('a comma or a closing bracket is missing here', 'Write one');
      }
    }
    return elements;
  }
}

/**
 * The value that begins at a place of a text, and where it ends.
 * @param {string} text
 * @param {number} [at]
 */
export const readLiteral = (text, at = 0) => {
  const literal = new Literal(text, at);
  return { value: literal.value(), end: literal.at };
};
