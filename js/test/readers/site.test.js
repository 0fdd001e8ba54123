import assert from 'node:assert/strict';
import { test } from 'node:test';
import { questionsOf, readSite } from '../../readers/site.js';
import { parseHtml as parse } from './tree.js';

const har = JSON.stringify({ log: { entries: [
  ['https://a.example/', 'document', "img-src 'self'"], ['https://a.example/f', 'iframe', "font-src 'self'"],
].map(([url, to, value], n) => ({
  startedDateTime: `2026-01-01T00:00:0${n}Z`,
  request: { url, headers: [{ name: 'Sec-Fetch-Dest', value: to }] },
  response: { status: 200, headers: [{ name: 'Content-Security-Policy', value }],
    content: { mimeType: 'text/html', text: '<p>' } },
})) } });
const files = [
  { name: 'index.html', text: '<p style="x">' },
  { name: 'index.html.headers', text: "Content-Security-Policy: img-src 'self'" },
  { name: 'shop/my page.html', text: '<img src="x.png">' },
  { name: 'shop/index.html', text: '<!DOCTYPE html>' },
  { name: 'shop/app.js', text: 'go()' }, { name: 'old.txt', text: 'img-src *' },
  { name: 'visit.json', text: har },
];
const base = 'https://a.example/new/';

test('each page has its own header', () => {
  const { pages, left } = readSite(files, { parse, base });
  assert.deepEqual(pages.map(it => [it.file, it.url, it.lines]), [
    ['index.html', 'https://a.example/new/', ["Content-Security-Policy: img-src 'self'"]],
    ['shop/my page.html', 'https://a.example/new/shop/my%20page.html', []],
    ['shop/index.html', 'https://a.example/new/shop/', []],
    ['visit.json', 'https://a.example/', ["Content-Security-Policy: img-src 'self'"]],
    ['visit.json', 'https://a.example/f', ["Content-Security-Policy: font-src 'self'"]],
  ]);
  assert.equal(pages[1].pieces[0].request.url, 'https://a.example/new/shop/x.png');
  assert.deepEqual(left, [
    { file: 'shop/my page.html', said: 'no headers were given for this page: only its meta elements count' },
    { file: 'shop/index.html', said: 'no headers were given for this page: only its meta elements count' },
    { file: 'shop/app.js', said: 'neither a HAR nor HTML nor headers: left out' },
    { file: 'old.txt', said: "headers of old, which isn't there: left out" },
  ]);
});

test('one header stands for all pages, but not for frames', () => {
  const lines = ["Content-Security-Policy: media-src 'none'"];
  const { pages } = readSite(files, { parse, base, lines });
  assert.deepEqual(pages.map(it => it.lines),
    [lines, lines, lines, lines, ["Content-Security-Policy: font-src 'self'"]]);
});

test('pages of HTML need an address', () => {
  const message = 'index.html: pages of HTML need the address at which they are served: "". '
    + 'Give the address of the folder, as https://www.example/.';
  assert.throws(() => readSite(files, { parse }), { name: 'ReadingError', message });
});

test('the engine is asked once for each list of policies', () => {
  const [meta, one] = ['Meta-Content-Security-Policy: img-src a.example',
    'Content-Security-Policy: font-src a.example'];
  const piece = (/** @type {string} */ source, /** @type {string[]} */ under) =>
    ({ request: { kind: 'inline', type: 'style', source }, meta: under, said: source });
  const pieces = [piece('a', []), piece('b', [meta]), piece('c', []), piece('d', [meta])];
  const asked = questionsOf({ origin: 'https://a.example', lines: [one], pieces });
  assert.deepEqual(asked.map(it => [it.origin, it.policy, it.pieces.map(of => of.said)]), [
    ['https://a.example', `${one}\n`, ['a', 'c']], ['https://a.example', `${one}\n${meta}\n`, ['b', 'd']],
  ]);
  const many = Array.from({ length: 10_001 }, () => piece('x', []));
  assert.deepEqual(questionsOf({ origin: 'null', lines: [], pieces: many }).map(it => it.pieces.length),
    [10_000, 1]);
  const long = Array.from({ length: 3 }, () => piece('x'.repeat(1_500_000), []));
  assert.deepEqual(questionsOf({ origin: 'null', lines: [], pieces: long }).map(it => it.pieces.length),
    [2, 1]);
});
