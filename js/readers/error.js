// What a reader says of a text that it can't read: where it stands, what stood there and what to write.

/** @param {string} text */
const short = text => text.length > 60 ? `${text.slice(0, 60)}..` : text;

export class ReadingError extends Error {
  /**
   * @param {object} told
   * @param {string} told.said what is wrong, as a sentence without its full stop
   * @param {string} [told.found] the text that stood there
   * @param {string} told.write what to write in its place, as a sentence without its full stop
   * @param {number} [told.line] counted from 1
   * @param {string} [told.file] the name of the file
   */
  constructor(told) {
    const { said, found, write, line, file } = told;
    const at = line === undefined ? [] : [`line ${line}`];
    const place = [...file === undefined ? [] : [file], ...at].join(', ');
    const stood = found === undefined ? '' : `: "${short(found)}"`;
    super(`${place === '' ? '' : `${place}: `}${said}${stood}. ${write}.`);
    this.name = 'ReadingError';
    this.told = told;
  }

  /**
   * The same error with its place, where it didn't tell it.
   * @param {{file?: string, line?: number}} place
   */
  in(place) {
    return new ReadingError({ ...place, ...this.told });
  }
}

/**
 * The number of the line in which a place of a text stands.
 * @param {string} text
 * @param {number} at
 */
export const lineAt = (text, at) => text.slice(0, at).split('\n').length;
