import assert from 'node:assert/strict';
import { test } from 'node:test';
import { read } from '../../index.js';
import { marksOf } from '../../readers/marks.js';
import { engine } from '../shared.js';

const marksIn = lines => marksOf(read(engine, { headers: lines.join('\n') }));

// A value of an enforced header, or a whole header line; and its marks
const MARKED = /** @type {[string, string[]][]} */ ([
  ["default-src 'self'; img-src https: data:; report-to csp; sandbox allow-scripts; report-uri /none", []],
  ["script-src 'Self' 'NONCE-abc' 'sha256-abc' 'strict-dynamic' 'report-sample'", []],
  ['default-src ‘self’', ['"‘" is a typographic quote, which makes browsers drop the directive: write \'']],
  ['img-src https://bücher.example', ['a character outside ASCII makes browsers drop the directive']],
  ["default-src 'self' img-src https:", [
    'img-src names a directive, and counts as a source here: is a semicolon missing before it?']],
  ['img-src https://a.example, https://b.example', [
    'a comma stands before https://b.example, and begins another policy: was a space meant?']],
  ["img-src 'self', font-src 'self'", []],
  ['Meta-Content-Security-Policy: img-src a.example, b.example', [
    'a.example, has a comma, which a meta element keeps in the word: was a space meant?']],
  ['Meta-Content-Security-Policy: frame-ancestors a.example', [
    'frame-ancestors has no effect in a meta element: write it in a header']],
  ['defalt-src https:', ['defalt-src is no directive, and decides nothing: write default-src']],
  ['img-src: https:', ['img-src: is no directive, and decides nothing: write img-src']],
  ['colour red', ['colour is no directive, and decides nothing']],
  ['plugin-types application/pdf', [
    'browsers pass over plugin-types: browsers have no plugins any more; object-src decides']],
  ["img-src self 'sefl' \"none\" 'b.example'", [
    "self without quotes is a host of that name: write 'self'", "'sefl' matches nothing: write 'self'",
    "\"none\" matches nothing: write 'none'", "'b.example' matches nothing"]],
  ["script-src 'unsafe-inlin'", ["'unsafe-inlin' matches nothing: write 'unsafe-inline'"]],
  ["script-src 'unsafe-inline' 'nonce-a' 'sha256-b' 'strict-dynamic'", [
    "'unsafe-inline' has no effect beside a nonce and a hash and 'strict-dynamic'"]],
  ["img-src 'none' https:", ["'none' has no effect beside other sources"]],
  ['img-src a.example; IMG-SRC b.example', ['img-src stands twice: the first one counts']],
]);

for (const [text, expected] of MARKED) {
  test(`marks of ${text}`, () => {
    const line = text.startsWith('Meta') ? text : `Content-Security-Policy: ${text}`;
    assert.deepEqual(marksIn([line]).map(it => it.said), expected);
  });
}

test('a mark names its policy and its directive', () => {
  const lines = ["Content-Security-Policy: img-src 'self', font-src 'self'",
    'Content-Security-Policy: font-src none'];
  assert.deepEqual(marksIn(lines), [
    { policy: 2, directive: 'font-src', said: "none without quotes is a host of that name: write 'none'" },
  ]);
});
