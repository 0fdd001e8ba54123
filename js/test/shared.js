/** What the tests share: the engine, files of the repository, and answers in the program's words. */
import { spawnSync } from 'node:child_process';
import { mkdtempSync, readFileSync, readdirSync, rmSync } from 'node:fs';
import { tmpdir } from 'node:os';
import { join } from 'node:path';
import test from 'node:test';
import { fileURLToPath } from 'node:url';
import { loadEngine } from '../node.js';

export const TOP = fileURLToPath(new URL('../..', import.meta.url));
export const engine = await loadEngine();

/** What a file of the repository holds. */
export const contentOf = path => readFileSync(join(TOP, path));

/** A folder that is gone after the tests of a file. */
export const temporaryFolder = () => {
  const folder = mkdtempSync(join(tmpdir(), 'guidecerise-test-'));
  test.after(() => rmSync(folder, { recursive: true, maxRetries: 10, retryDelay: 100 }));
  return folder;
};

/** How tsc reads a user of the package. */
export const STRICT =
  ['--noEmit', '--strict', '--target', 'ES2022', '--module', 'ES2022', '--moduleResolution', 'Node'];

/** Whether a program is on the path. */
export const has = name => spawnSync('sh', ['-c', `command -v ${name}`]).status === 0;

/** Runs the command at the top of the repository; `node` has words for Node itself. */
export const guidecerise = (words, { node = [], ...options } = {}) => {
  const command = fileURLToPath(new URL('../bin/guidecerise.js', import.meta.url));
  const { GUIDECERISE_PROGRAM, ...env } = process.env;
  return spawnSync(process.execPath, [...node, command, ...words], {
    cwd: TOP, encoding: 'utf8', ...options, env: { ...env, ...options.env },
  });
};

// The words of the program, and from which on they are files
const FIRST_FILE = {
  judge: 2, why: 2, report: 2, compare: 2, differ: 2, check: 2, embed: 3, tidy: 2, learn: 2, order: 2,
};

/** Asks the engine what the words say, with the files of a folder. */
export const ask = (words, folder) => {
  const files = new Set(words.slice(FIRST_FILE[words[0]] ?? words.length));
  return engine.call(words, [...files].map(name => [name, readFileSync(join(folder, name))]));
};

/** Each word over the files of each example that it fits: the words, and the files. */
export const exampleCases = () => readdirSync(join(TOP, 'examples'), { withFileTypes: true })
  .filter(it => it.isDirectory()).flatMap(({ name: folder }) => {
    const names = readdirSync(join(TOP, 'examples', folder));
    const texts = names.filter(it => it.endsWith('.txt'));
    const requests = names.filter(it => it.endsWith('.json'));
    const pairs = texts.flatMap(a => texts.filter(b => b !== a).map(b => [a, b]));
    const origin = 'https://a.example', embedder = 'https://e.example';
    const words = [
      ...['judge', 'why', 'report'].flatMap(it => texts.flatMap(a => requests.map(b => [it, origin, a, b]))),
      ...['compare', 'differ'].flatMap(it => pairs.map(pair => [it, origin, ...pair])),
      ...texts.map(it => ['tidy', origin, it]), ...requests.map(it => ['learn', origin, it]),
      ...folder === 'embed' ? texts.map(it => ['embed', embedder, origin, 'required.txt', it]) : [],
      ...folder === 'check' ? texts.map(it => ['check', origin, 'new.txt', 'old.txt', it]) : [],
      ...texts.length > 1 ? [['order', origin, ...texts]] : [],
    ];
    const files = [...texts, ...requests].map(name => [name, contentOf(join('examples', folder, name))]);
    return words.map(it => [it, files]);
  });

const lines = all => all.map(it => `${it}\n`).join('');
const itemText = ({ policy, disposition, effective, governing }) =>
  ` ${policy}:${disposition}:${effective}/${governing}`;
const verdictText = ({ number, blocked, items }) =>
  `${number} ${blocked ? 'blocked' : 'allowed'}${items.map(itemText).join('')}`;
const groundText = ({ policy, directive, does, by, token, near, add }) => lines([
  `  ${policy} ${directive} ${does}${by === undefined ? '' : ` ${by} ${token}`}`,
  ...near.map(it => `    ${it.token} ${it.butFor}`),
  ...add === undefined ? [] : [`    add ${add} to ${directive}`],
]);
const toldText = ({ url, policies }) =>
  lines(url === null ? [] : [`  url ${url}`]) + policies.map(groundText).join('');
const shownText = ({ request, url, items }) => lines([
  JSON.stringify(request), ...url === null ? [] : [`url ${url}`],
  `second blocked${items.map(itemText).join('')}`,
]);

const comparison = it => it.weaker ? `not subsumed\n${shownText(it)}` : it.proof;
const relation = ({ first, second, weaker, proof, through, request }) => {
  const yes = through === undefined ? `yes proof\n${proof}` : `yes through ${through.join(' ')}\n`;
  return `${first} ${second} ${weaker ? `no\n${JSON.stringify(request)}\n` : yes}`;
};
const needed = ({ policy, directive, token, how, request }) =>
  `needed ${policy} ${directive} ${token} ${how}\n${JSON.stringify(request)}\n`;

/** Each answer as the program prints it: nothing of it may be lost, and nothing may stand elsewhere. */
export const PRINTED = {
  judge: verdicts => lines(verdicts.map(verdictText)),
  why: reasons => reasons.map(it => lines([verdictText(it)]) + it.checks.map(toldText).join('')).join(''),
  report: ({ reports, counts }) => lines([
    'reporter lines', ...reports.map(it => JSON.stringify(it)),
    'reporter tally', ...Object.entries(counts).map(([name, count]) => `${name} ${count}`),
  ]),
  compare: comparison,
  differ: all => all.length === 0 ? 'not weaker\n'
    : all.map(it => `${it.directive}\n${shownText(it)}`).join(''),
  check: it => it.accepted ? 'accepted\n' : `rejected ${it.line}\n`,
  embed: it => ({ added: () => `added\n${it.policy}\n`, served: () => `served\n${it.proof}`,
    refused: () => `refused\nnot subsumed\n${shownText(it)}` })[it.answer](),
  tidy: ({ headers, needed: all, proofs }) => `tidied\n${headers}${all.map(needed).join('')}`
    + `input to output\n${proofs.inputToOutput}output to input\n${proofs.outputToInput}`,
  learn: ({ headers, notLearnt }) =>
    headers + lines(notLearnt.map(({ request, hop }) => `not learnt ${request} ${hop}`)),
  order: all => all.map(relation).join(''),
};

const MEMBERS = {
  judge: ['origin', 'headers', 'requests'], why: ['origin', 'headers', 'requests'],
  report: ['origin', 'headers', 'requests'], compare: ['origin', 'new', 'old'],
  differ: ['origin', 'new', 'old'], check: ['origin', 'new', 'old', 'proof'],
  embed: ['embedder', 'origin', 'required', 'response'],
  tidy: ['origin', 'headers'], learn: ['origin', 'requests'],
};

/** What a typed call is given for the words of the program. */
export const givenOf = ([word, ...words], files) => {
  const held = new Map(files.map(([name, content]) => [name, content]).reverse());
  const values = words.map((it, n) => n < FIRST_FILE[word] - 1 ? it : held.get(it));
  if (word === 'order') return { origin: values[0], lists: values.slice(1) };
  return Object.fromEntries(MEMBERS[word].map((name, n) => [name, values[n]]));
};

