/** The lines of `read`, as the program prints them, taken apart. */
import assert from 'node:assert/strict';
import test from 'node:test';
import { readingOf } from '../answers.js';
import { read } from '../index.js';

// Of the header lines: nothing, "img-src a:, , script-src \u2018x\u2019; trusted-types", ";", and one of a
// meta element with a byte that isn't UTF-8
const LINES = [
  '{"policy":0,"line":2,"disposition":"enforce","meta":false,"directives":[{"name":"img-src","decides":true,'
    + '"tokens":[{"text":"a:","kind":"scheme"}]}]}',
  '{"dropped":"","line":2,"reason":"empty-policy"}',
  '{"policy":1,"line":2,"disposition":"enforce","meta":false,"directives":[{"name":"trusted-types",'
    + '"decides":false,"tokens":[]}]}',
  '{"dropped":"script-src \u2018x\u2019","line":2,"reason":"not-ascii"}',
  '{"dropped":";","line":3,"reason":"empty-policy"}',
  '{"policy":2,"line":4,"disposition":"report","meta":true,"directives":[{"name":"base-uri","decides":true,'
    + '"tokens":[{"text":"\'none\'","kind":"none"}]}]}',
  '{"dropped":"sandbox","line":4,"reason":"not-in-meta"}',
  '{"dropped":"img-src caf\u00e9","line":4,"reason":"not-ascii","utf8":false}',
];
const TEXT = LINES.map(it => `${it}\n`).join('');

test('policies with their directives, and what is dropped with its policy', () => {
  const { policies, dropped } = readingOf(TEXT);
  assert.deepEqual(policies.map(({ policy, line, disposition, meta }) => [policy, line, disposition, meta]), [
    [0, 2, 'enforce', false], [1, 2, 'enforce', false], [2, 4, 'report', true],
  ]);
  assert.deepEqual(policies.map(it => it.directives), [
    [{ name: 'img-src', decides: true, tokens: [{ text: 'a:', kind: 'scheme' }] }],
    [{ name: 'trusted-types', decides: false, tokens: [] }],
    [{ name: 'base-uri', decides: true, tokens: [{ text: "'none'", kind: 'none' }] }],
  ]);
  assert.deepEqual(dropped.map(it => [it.dropped, it.line, it.reason, it.policy, it.utf8]), [
    ['', 2, 'empty-policy', null, undefined], ['script-src \u2018x\u2019', 2, 'not-ascii', 1, undefined],
    [';', 3, 'empty-policy', null, undefined], ['sandbox', 4, 'not-in-meta', 2, undefined],
    ['img-src caf\u00e9', 4, 'not-ascii', 2, false],
  ]);
  assert.deepEqual(readingOf(''), { policies: [], dropped: [] });
});

test('the program is asked by its word', () => {
  const asked = [];
  const program = { call: (...given) => (asked.push(given), { code: 0, bytes: new Uint8Array(), text: TEXT }) };
  assert.equal(read(program, { headers: 'x' }).policies.length, 3);
  assert.deepEqual(asked, [[['read', 'null', 'headers'], [['headers', 'x']]]]);
});
