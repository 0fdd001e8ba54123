/**
 * What is written for a person: tables that fit the terminal, wrapped sentences, colours where it shows
 * them.
 */

/** @typedef {'red' | 'green' | 'yellow' | 'bold'} Colour */
/** @typedef {{ width: number, paint: (text: string, colour: Colour) => string }} Page */
/** @typedef {string | { text: string, colour: Colour }} Cell */

const CODES = { red: 31, green: 32, yellow: 33, bold: 1 };
const GAP = '  ';
const LEAST = 12;

/**
 * The page that a stream shows: as wide as the terminal, or without an end where it is none.
 * @param {{ isTTY?: boolean, columns?: number }} stream
 * @param {Record<string, string | undefined>} environment
 * @returns {Page}
 */
export const pageOf = ({ isTTY, columns }, { NO_COLOR, TERM }) => {
  const colours = isTTY === true && !NO_COLOR && TERM !== 'dumb';
  return {
    width: isTTY === true ? columns ?? 80 : Infinity,
    paint: (text, colour) => colours ? `\x1b[${CODES[colour]}m${text}\x1b[0m` : text,
  };
};

/**
 * A text of strangers, without what a terminal takes for commands.
 * @param {string} text
 */
export const plain = text => text.replace(/[\p{Cc}\p{Cf}\u2028\u2029]+/gu, '\uFFFD');

/**
 * @param {string} text
 * @param {number} width
 */
const cut = (text, width) => {
  if (text.length <= width) return text;
  const end = Math.floor((width - 1) / 3);
  return `${text.slice(0, width - 1 - end)}…${text.slice(text.length - end)}`;
};

/**
 * A table. Where it is too wide for the page, the widest columns are cut.
 * @param {string[]} head
 * @param {Cell[][]} rows
 * @param {Page} page
 */
export const table = (head, rows, { width, paint }) => {
  const texts = rows.map(row => row.map(it => plain(typeof it === 'string' ? it : it.text)));
  const widths = head.map((name, n) => Math.max(name.length, ...texts.map(row => row[n].length)));
  const whole = () => widths.reduce((sum, it) => sum + it, GAP.length * (widths.length - 1));
  while (whole() > width && Math.max(...widths) > LEAST) {
    const widest = widths.indexOf(Math.max(...widths));
    const next = Math.max(LEAST, ...widths.filter((_, n) => n !== widest));
    widths[widest] = Math.max(Math.min(next, widths[widest] - 1), widths[widest] - (whole() - width));
  }
  /** @type {(cells: string[], colours: (Colour | undefined)[]) => string} */
  const line = (cells, colours) => cells.map((cell, n) => {
    const text = cut(cell, widths[n]), colour = colours[n], gap = ' '.repeat(widths[n] - text.length);
    return (colour === undefined ? text : paint(text, colour)) + gap;
  }).join(GAP).trimEnd();
  return [
    line(head, head.map(() => 'bold')),
    ...texts.map((row, n) => line(row, rows[n].map(it => typeof it === 'string' ? undefined : it.colour))),
  ];
};

/**
 * A text on lines that fit the page. The lines after the first begin with the indent.
 * @param {string} text
 * @param {Page} page
 * @param {string} [indent]
 */
export const wrapped = (text, { width }, indent = '') => {
  const [start, ...words] = plain(text).split(/(?<=\S) /), lines = [start];
  for (const word of words) {
    const longer = `${lines[lines.length - 1]} ${word}`;
    if (longer.length > width) lines.push(indent + word);
    else lines[lines.length - 1] = longer;
  }
  return lines;
};
