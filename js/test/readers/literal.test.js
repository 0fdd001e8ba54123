import assert from 'node:assert/strict';
import { test } from 'node:test';
import { readLiteral } from '../../readers/literal.js';

test('literals of JavaScript', () => {
  for (const [text, expected] of /** @type {[string, unknown][]} */ ([
    [String.raw`"a\"\\\n\t\u0041\x42\u{1F600}"`, 'a"\\\n\tAB\u{1F600}'],
    ["'it\\\ns'", 'its'], ['`a\n$b`', 'a\n$b'],
    ['[1, -2.5e3, true, false, null, undefined,]', [1, -2500, true, false, null, undefined]],
    ['{ a: 1, "b-c": [], /* d: 2, */ $e: {} // f\n}', { a: 1, 'b-c': [], $e: {} }],
    ['{"__proto__": 1}', JSON.parse('{"__proto__": 1}')],
  ])) assert.deepEqual(readLiteral(text).value, expected, text);
});

test('what follows a literal is left', () => {
  assert.deepEqual(readLiteral('f({a: 1}).then()', 2), { value: { a: 1 }, end: 8 });
});

for (const [text, message] of [
  ['{a: b}', 'line 1: this is code, or no literal: "b}". Write the text that it gives, in quotes.'],
  ['{a: 1\nb: 2}', 'line 2: a comma or a closing brace is missing here: "b: 2}". Write one.'],
  ['[1 2]', 'line 1: a comma or a closing bracket is missing here: "2]". Write one.'],
  ['{a 1}', 'line 1: a colon is missing behind a: "1}". Write a colon and a value.'],
  ['{...a}', 'line 1: a name of a member is missing here: "...a}". Write it in quotes.'],
  ['[`${a}`]', 'line 1: this is code, or no literal: "`${a}`]". Write the text that it gives, in quotes.'],
]) test(`refused: ${text}`, () => assert.throws(() => readLiteral(text), { name: 'ReadingError', message }));
