import assert from 'node:assert/strict';
import { test } from 'node:test';
import { readHeaders } from '../../readers/headers.js';
import { data, parseHtml as parse } from './tree.js';

const told = (/** @type {import('../../readers/headers.js').Said[]} */ list) =>
  list.map(({ line, said }) => `${line} ${said}`);

for (const [name, expected] of Object.entries(JSON.parse(data('headers.json')))) {
  test(`headers of ${name}`, () => {
    const { lines, taken, left } = readHeaders(data(`headers/${name}`), { parse });
    assert.deepEqual({ lines, taken: told(taken), left: told(left) }, { taken: [], left: [], ...expected });
  });
}

const WRITE = "Write a header line, as Content-Security-Policy: default-src 'self'.";
const REFUSED = [
  ['', `x.txt: there is no text. ${WRITE}`],
  ['\nhello', `x.txt, line 2: no policy stands in this: "hello". ${WRITE}`],
  ['\nadd_header Content-Security-Policy "img-src *;',
    'x.txt, line 2: the quote " that opens the value isn\'t closed: ""img-src *;". '
      + 'Write " behind the value.'],
  ["add_header Content-Security-Policy 'default-src 'self'';",
    `x.txt, line 1: the quote ' that opens the value ends it too early: "'default-src '". `
      + "Write \\' inside of the value, or other quotes around it."],
  ['{"directives": {\n"defaultSrc": [(req, res) => nonce]}}',
    'x.txt, line 2: this is code, or no literal: "(req, res) => nonce]}}". '
      + 'Write the text that it gives, in quotes.'],
  ['{"directives": {"defaultSrc": [1]}}',
    'x.txt, line 1: the value of default-src is no text: "1". Write an array of texts.'],
  ['Content-Security-Policy: img-src \x01',
    'x.txt, line 1: no header can carry this character: "U+0001". Take it out.'],
];

for (const [text, message] of REFUSED) {
  test(`refused: ${JSON.stringify(text)}`, () => {
    assert.throws(() => readHeaders(text, { parse, name: 'x.txt' }), { name: 'ReadingError', message });
  });
}

test('a page that speaks of directives is a page', () => {
  const text = '<head><meta http-equiv="Content-Security-Policy" content="img-src *">'
    + '<script>({ directives: {} })</script>';
  assert.deepEqual(readHeaders(text, { parse }).lines, ['Meta-Content-Security-Policy: img-src *']);
});

test('directives below a header line belong to it, where no server has sent it', () => {
  const text = "Content-Security-Policy: default-src 'self'\nimg-src https:\nfont-src a.example;\nServer: x";
  assert.deepEqual(readHeaders(text).lines,
    ["Content-Security-Policy: default-src 'self'; img-src https:; font-src a.example;"]);
  const { lines, left } = readHeaders(`HTTP/2 200\n${text}`);
  assert.deepEqual(lines, ["Content-Security-Policy: default-src 'self'"]);
  assert.deepEqual(told(left), [
    '3 this is no header line, and is left out: "img-src https:"',
    '4 this is no header line, and is left out: "font-src a.example;"',
  ]);
});

test('quotes that a server sent stay', () => {
  const { lines, left } = readHeaders('HTTP/2 200\ncontent-security-policy: "img-src *"\n');
  assert.deepEqual(lines, ['Content-Security-Policy: "img-src *"']);
  assert.deepEqual(told(left), ['2 quotes stand around the value: browsers take them as a part of it']);
});

test('without a parser a page is left out, and that is said', () => {
  const { lines, left } = readHeaders('<meta http-equiv="Content-Security-Policy" content="img-src *">');
  assert.deepEqual(lines, []);
  assert.deepEqual(told(left), [
    '1 a page stands here: its meta elements are not looked at',
    '1 no policy stands in this: nothing is blocked',
  ]);
});
