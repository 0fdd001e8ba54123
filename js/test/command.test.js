/** The command: what a person sees, what a program reads, and the exit codes. */
import assert from 'node:assert/strict';
import { chmodSync, readFileSync, writeFileSync } from 'node:fs';
import { join } from 'node:path';
import test from 'node:test';
import { pageOf, table, wrapped } from '../command/page.js';
import { ask, contentOf, guidecerise, TOP, temporaryFolder } from './shared.js';

const ORIGIN = 'https://a.example';
const BLOCKED = ['judge', ORIGIN, 'examples/blocked/policy.txt', 'examples/blocked/requests.json'];
const FIRST = ['judge', ORIGIN, 'examples/first/policy.txt', 'examples/first/requests.json'];
const KINDS = ['judge', ORIGIN, 'examples/kinds/policy.txt', 'examples/kinds/requests.json'];
const folder = temporaryFolder();
const file = (name, content) => {
  writeFileSync(join(folder, name), content);
  return join(folder, name);
};

test('judge for a person', () => {
  const { stdout, stderr, status } = guidecerise(BLOCKED);
  assert.equal(stdout, `#  answer   request                                 by
1  blocked  image https://cdn.example.org/logo.png  img-src

1 of 1 request is blocked.
Looked at: what examples/blocked/requests.json names, on a page of https://a.example. \
It names none of these, which were not looked at: inline scripts, event handlers, javascript: URLs, \
inline styles, style attributes, eval, WebAssembly, forms, base URLs, frames around the page.
`);
  assert.deepEqual([stderr, status], ['', 1]);
});

test('differ for a person, by the names of its members', () => {
  const { stdout, status } = guidecerise(
    ['differ', '--old', 'examples/differ/old.txt', '--origin', ORIGIN, '--new', 'examples/differ/new.txt']);
  assert.equal(stdout, `weaker       now allowed                               blocked before by
form-action  form to https://pay.example.net/checkout  form-action
img-src      image data:                               img-src
script-src   a string run as script                    script-src

Weaker: examples/differ/new.txt allows what examples/differ/old.txt blocks.
One request is shown for each directive; there may be more. On a page of https://a.example. \
Not compared: Trusted Types, upgrade-insecure-requests, report-only policies.
`);
  assert.equal(status, 1);
});

test('a yes is never better than what was compared', () => {
  const nothing = guidecerise(['compare', ORIGIN, 'examples/nothing/new.txt', 'examples/nothing/old.txt']);
  assert.match(nothing.stdout, /^No answer: examples\/nothing\/old.txt blocks nothing/m);
  assert.equal(nothing.status, 15);
  const old = ['--old', 'examples/nothing/old.txt'], proof = file('nothing.proof', 'csp-proof 2\nend\n');
  assert.equal(guidecerise(['check', ORIGIN, 'examples/nothing/new.txt', ...old, proof]).status, 15);
  const required = file('required.txt', 'Content-Security-Policy: image-src x');
  const embedded = guidecerise(['embed', ORIGIN, ORIGIN, required, 'examples/embed/served.txt']);
  assert.match(embedded.stdout, /^No answer: .*required\.txt blocks nothing/m);
  const empty = guidecerise(['judge', ORIGIN, '/dev/null', 'examples/first/requests.json']);
  assert.match(empty.stdout, /\/dev\/null blocks nothing at all/);
  const none = guidecerise(['judge', ORIGIN, 'examples/first/policy.txt', file('none.json', '[]')]);
  assert.match(none.stdout, /^No request was given, so nothing was judged\./);
  const files = ['examples/report-only/policy.txt', 'examples/report-only/requests.json'];
  const only = guidecerise(['judge', ORIGIN, ...files]);
  assert.match(only.stdout, /^None of 1 request is blocked\. But 1 would be, if report-only policies/m);
});

test('the proof that compare keeps is accepted', () => {
  const words = [ORIGIN, 'examples/stricter/new.txt', 'examples/stricter/old.txt'];
  const proof = join(folder, 'kept.proof');
  assert.equal(guidecerise(['compare', ...words, '--save-proof', proof]).status, 0);
  assert.match(guidecerise(['check', ...words, proof]).stdout, /^Accepted: /);
  const bare = guidecerise(['check', ...words, '-'], { input: readFileSync(proof) });
  assert.equal(bare.status, 0, bare.stderr);
});

test('more rows than fit are summed up', () => {
  const requests = Array.from({ length: 30 }, (_, n) =>
    ({ kind: 'fetch', destination: 'image', url: `https://${n < 21 ? 'x' : 'y'}.example/${n}.png` }));
  const headers = file('one.txt', "Content-Security-Policy: img-src 'self'");
  const words = ['judge', ORIGIN, headers, file('many.json', JSON.stringify(requests))];
  const [, ...rows] = guidecerise(words).stdout.split('\n');
  assert.deepEqual(rows.slice(0, 2).map(it => it.split(/ {2,}/)),
    [['21', 'blocked', 'image x.example', 'img-src'], ['9', 'blocked', 'image y.example', 'img-src']]);
  const all = guidecerise([...words, '--all']).stdout.split('\n');
  assert.equal(all.filter(it => it.includes('blocked  image')).length, 30);
});

test('JSON of an answer and of a refusal', () => {
  const told = JSON.parse(guidecerise([...BLOCKED, '--json']).stdout);
  const members = ['schema', 'word', 'given', 'status', 'sentence', 'warnings', 'covers', 'remarks', 'unseen',
    'answer'];
  assert.deepEqual(Object.keys(told), members);
  assert.deepEqual([told.schema, told.word, told.status], [1, 'judge', 1]);
  const item = { policy: 0, disposition: 'enforce', effective: 'img-src', governing: 'img-src' };
  assert.deepEqual(told.answer, [{ number: 1, blocked: true, items: [item] }]);
  const bad = file('beacon.json', '[\n{"kind": "fetch", "destination": "beacon", "url": "data:,"}]');
  const { stdout, status } = guidecerise([...BLOCKED.slice(0, 3), bad, '--json']);
  const { code, path, line, member, got } = JSON.parse(stdout).refusal;
  assert.equal(status, 6);
  assert.deepEqual([code, path, line, member, got], ['bad-requests', bad, 2, 'destination', 'beacon']);
});

test('SARIF and annotations name a file and a line', () => {
  const lineOf = ({ locations: [{ physicalLocation: { region } }] }) => region.startLine;
  const sarif = words => JSON.parse(guidecerise([...words, '--sarif']).stdout);
  const newer = file('new.txt', 'HTTP/2 200\nContent-Security-Policy: img-src *');
  const words = ['differ', ORIGIN, '--new', newer, '--old', 'examples/first/policy.txt'];
  const { version, runs: [{ results: [result] }] } = sarif(words);
  assert.deepEqual([version, result.ruleId, result.level, lineOf(result)], ['2.1.0', 'img-src', 'error', 2]);
  const annotation = `::error file=${newer},line=2,title=img-src::img-src is weaker: image `;
  assert.ok(guidecerise([...words, '--github']).stdout.startsWith(annotation));
  assert.deepEqual(sarif(KINDS).runs[0].results.map(lineOf), [2, 7, 8, 9, 12, 13]);
});

test('what is wrong is told with its place', () => {
  const bad = file('bad.txt', "HTTP/2 200\ndefault-src 'self'\n"), [, , , requests] = FIRST;
  for (const [words, said, code] of [
    [['judge', ORIGIN, bad, requests], `${bad}:2: no header line: "default-src 'self'"\n  Write Content`, 4],
    [['judge', ORIGIN, 'none.txt', requests], 'none.txt: there is no such file\n', 8],
    [['judge', 'x', ORIGIN, 'y'], 'https://a.example: there is no such file\n  An origin stands here', 8],
    [['tidy', ORIGIN], 'HEADERS is missing\n  Usage: guidecerise tidy ORIGIN HEADERS\n', 2],
    [['tidy', ORIGIN, bad, 'x'], 'one word too many: x\n', 2],
    [['tidy', ORIGIN, bad, '--sarif'], 'tidy finds nothing that has a line\n', 2],
    [['tidy', '--hedaers', bad], "Unknown option '--hedaers'\n", 2],
    [['jugde'], 'no word "jugde"\n  Write judge?\n', 2],
    [['check', ORIGIN, bad, '-', '-'], '- stands for two files\n', 2],
  ]) {
    const { stdout, stderr, status } = guidecerise(words);
    assert.ok(stderr.startsWith(`guidecerise: ${said}`), stderr);
    assert.deepEqual([stdout, status], ['', code]);
  }
});

test('help fits a terminal, and each word has its own', () => {
  const { stdout, status } = guidecerise(['--help']);
  const words = [...stdout.matchAll(/^ {2}([a-z]+) {2,}\S/gm)].map(it => it[1])
    .filter(it => !['csp', 'events'].includes(it));
  assert.equal(status, 0);
  assert.ok(words.length >= 10);
  for (const text of [stdout, ...words.map(it => guidecerise([it, '--help']).stdout)]) {
    assert.match(text, /^Exit codes:$/m);
    assert.deepEqual(text.split('\n').filter(it => it.length > 80), []);
  }
  assert.equal(guidecerise(['--version']).stdout, `guidecerise ${contentOf('VERSION')}`);
  assert.equal(guidecerise([]).status, 2);
});

test('csp is the program itself', () => {
  for (const words of [
    KINDS, ['drill', '3'], ['compare', 'x'],
    ['embed', 'https://e.example', ORIGIN, 'examples/embed/required.txt', 'examples/embed/served.txt'],
    ['order', ORIGIN, 'examples/order/none.txt', 'examples/order/none.txt'], [],
  ]) {
    const { stdout, status } = guidecerise(['csp', ...words]), { code, text } = ask(words, TOP);
    assert.deepEqual([stdout, status], [text, code], words.join(' '));
  }
  const unread = guidecerise(['csp', 'judge', ORIGIN, 'none.txt', 'none.json']);
  assert.deepEqual([unread.stdout, unread.status], ['read fault: policy\n', 8]);
});

test('GUIDECERISE_PROGRAM is asked in place of the module', () => {
  const lines = ['#!/bin/sh', '[ "$1" != read ] || exit 0', 'cat headers requests >"$OUT"',
    'echo "1 blocked 0:enforce:a/b"', 'exit 1'];
  const program = file('program', lines.map(it => `${it}\n`).join('')), out = join(folder, 'out');
  chmodSync(program, 0o755);
  const { stdout, status } = guidecerise(FIRST, { env: { GUIDECERISE_PROGRAM: program, OUT: out } });
  assert.match(stdout, /blocked {2}image https:\/\/b\.example\/x\.png {2}b\n/);
  assert.equal(status, 1);
  assert.equal(readFileSync(out, 'utf8'), FIRST.slice(2).map(it => contentOf(it).toString()).join(''));
});

test('a program that can\'t be run is no answer', () => {
  const env = { GUIDECERISE_PROGRAM: join(folder, 'no-program') };
  for (const words of [FIRST, ['csp', 'drill', '3']]) {
    const { stdout, stderr, status } = guidecerise(words, { env });
    assert.match(stderr, /no-program.*ENOENT/);
    assert.deepEqual([stdout, status], ['', 70]);
  }
});

test('read for a person', () => {
  const header = 'Content-Security-Policy: img-src https://a.example; IMG-SRC *, trusted-types x\n';
  const { stdout, status } = guidecerise(['read', ORIGIN, file('read.txt', header)]);
  assert.match(stdout, /^1 +enforced +img-src +yes +https:\/\/a\.example$/m);
  assert.match(stdout, /^2 +enforced +trusted-types +no +x$/m);
  assert.match(stdout, /^1 +IMG-SRC \* +another one of its name stands before it$/m);
  assert.match(stdout, /has 2 policies with 2 directives\. 1 piece of it is dropped\.$/m);
  assert.equal(status, 0);
});

test('colours stand on a terminal alone, and never where NO_COLOR is set', () => {
  assert.equal(pageOf({ isTTY: true, columns: 80 }, {}).paint('x', 'red'), '\x1b[31mx\x1b[0m');
  const terminal = { isTTY: true, columns: 80 };
  for (const [stream, env] of [[terminal, { NO_COLOR: '1' }], [{}, {}], [terminal, { TERM: 'dumb' }]]) {
    assert.equal(pageOf(stream, env).paint('x', 'red'), 'x');
  }
});

test('a table fits the page, and shows no command to the terminal', () => {
  const page = { width: 40, paint: it => it };
  const long = `image https://${'long.'.repeat(20)}example/x.png`;
  const lines = table(['#', 'request', 'by'], [['1', long, 'img-src'], ['2', 'a\x1b[2Jb', 'x']], page);
  assert.ok(lines.every(it => it.length <= 40), lines.join('\n'));
  assert.match(lines[1], /^1 {2}image .*….*x\.png {2}img-src$/);
  assert.doesNotMatch(lines[2], /\x1b/);
  assert.deepEqual(wrapped('one two three', { ...page, width: 8 }, '  '), ['one two', '  three']);
});
