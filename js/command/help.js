/** The texts of --help, which fit a terminal of 80 columns. */
import { MEMBERS, WORDS } from './words.js';

const takesRequests = (/** @type {import('./words.js').Word} */ it) =>
  it.members.includes('requests') && it.files === undefined;
const proposes = (/** @type {import('./words.js').Word} */ it) => it.word === 'propose';

/**
 * The options, each with the words that take it, or none where all do.
 * @type {[option: string, summary: string, takes?: (word: import('./words.js').Word) => boolean][]}
 */
const OPTIONS = [
  ['--form FORM', 'hosts, strict, or addition to the present policy', proposes],
  ['--headers FILE', 'the present policy, in any form that people have it in', proposes],
  ['--url URL', 'the address of the folder in which pages of HTML stand', proposes],
  ['--inline BY', 'nonces or hashes, for scripts and styles that have no nonce', proposes],
  ['--unsafe-hashes', 'handlers, javascript: URLs and style attributes by hashes', proposes],
  ['--all', 'each row, however many there are'],
  ['--json', 'JSON in place of a text for people'],
  ['--sarif', 'SARIF, for servers that show findings beside the code', it => it.finds === true],
  ['--github', 'an annotation of GitHub for each finding', it => it.finds === true],
  ['--headers FILE', 'one header for all pages, in place of each one\'s own',
    it => it.ofSite !== undefined && it.members.includes('headers')],
  ['--url URL', 'the address of the HTML file, or of the folder of HTML', takesRequests],
  ['--events FILE', 'what the browser said: its console, or copied events',
    it => it.word === 'judge' || it.word === 'why'],
  ['--headers FILE', 'which of the reports these headers would still cause', it => it.word === 'reports'],
  ['--ndjson', 'a request a line', it => it.word === 'requests' || it.word === 'reports'],
  ['--save-proof FILE', 'where the proof is kept', it => it.proofs !== undefined],
  ['--accepted FILE', 'what may be new, each with its reason', it => it.word === 'weaker'],
  ['--folder FOLDER', 'all pairs new.txt and old.txt below a folder', it => it.word === 'weaker'],
];

/** @param {typeof OPTIONS} options */
const listed = options =>
  options.map(([option, summary]) => `  ${option.padEnd(17)}  ${summary}\n`).join('');

const CODES = `Exit codes:
  0   nothing is blocked, not weaker, accepted, it may be shown, or markup
      runs no code by itself
  1   something is blocked, weaker, rejected, it may not be shown, or markup
      could run code
  2   the command line is wrong         8   a file can't be read
  3   the origin is wrong               9   the output can't be written
  4   a header file is wrong            10  there is no memory
  5   a file is too large               13  not one required policy
  6   the request file is wrong         15  a yes would mean nothing: the
  7   the proof is no proof                 headers block nothing, or a policy
                                            was enforced during the recording
  70  the command itself failed         16  not all was read as reports
`;

/** @param {import('./words.js').Word} word */
export const usageOf = ({ word, members, files, ofSite }) => {
  if (files !== undefined) return `guidecerise ${word} FILES ..`;
  const usage = `guidecerise ${word} ${members.join(' ').toUpperCase()}`;
  const more = members.includes('headers') ? ' [--headers FILE]' : '';
  return ofSite === undefined ? usage : `${usage}\n  or:  guidecerise ${word} REQUESTS..${more}`;
};

/** @param {import('./words.js').Word} word */
const taken = ({ members, files }) => {
  if (files !== undefined) return `  FILES ..  ${files}\n`;
  const told = members.map(it => `  ${it.toUpperCase().padEnd(9)} ${MEMBERS[it]}\n`).join('');
  return members.some(it => ['lists', 'reports'].includes(it)) ? told
    : `${told}\nEach may be given by its name too, as --origin, in any order.\n`;
};

/** @param {import('./words.js').Word} word */
export const helpOf = word => `${usageOf(word)}

Tells ${word.summary}.

${taken(word)}A file - is standard input.

${listed(OPTIONS.filter(([, , takes]) => takes === undefined || takes(word)))}
${CODES}`;

const width = Math.max(...WORDS.map(it => it.word.length));

export const help = `guidecerise tells what a Content Security Policy does. A proved engine answers.

  guidecerise WORD ..       WORD --help tells what it takes

${WORDS.map(({ word, summary }) => `  ${word.padEnd(width)}  ${summary}`).join('\n')}
  ${'events'.padEnd(width)}  a snippet for the console, which copies what the browser blocks
  ${'csp'.padEnd(width)}  the program itself: the same words, bytes and exit codes

  guidecerise judge page.har
  guidecerise judge https://www.example headers.txt requests.json
  guidecerise compare https://www.example --new new.txt --old old.txt

It reads files alone, and opens no connection.

${listed(OPTIONS.filter(([, , takes]) => takes === undefined))}  --version          the version

GUIDECERISE_PROGRAM may name the program built for this machine. It is asked in
place of the module, and quicker where a file is large.

${CODES}`;
