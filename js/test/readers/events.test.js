import assert from 'node:assert/strict';
import { test } from 'node:test';
import { readEvents, SNIPPET } from '../../readers/events.js';
import { data } from './tree.js';

const row = (/** @type {import('../../readers/events.js').Row} */ { line: from, violation }) => {
  const { directive, blocked, disposition, file, line, column, policy, sample } = violation;
  const at = [line, column].filter(it => it !== undefined).join(':');
  const place = at === '' ? [] : [`${file}:${at}`];
  const head = [from, directive, blocked, disposition, ...place].join(' ');
  return [head, policy, ...sample === '' ? [] : [sample]].join(' | ');
};

for (const [name, expected] of Object.entries(JSON.parse(data('events.json')))) {
  test(`what ${name} tells`, () => {
    const { rows, left, unseen } = readEvents(data(`events/${name}`));
    assert.deepEqual({ rows: rows.map(row), left: left.map(({ line, said }) => `${line} ${said}`) },
      expected);
    assert.equal(unseen.length, 2);
  });
}

test('the snippet keeps what happens in a copy of the page', () => {
  const listeners = /** @type {Record<string, (event: object) => void>} */ ({});
  const copy = { addEventListener: (/** @type {string} */ name, /** @type {() => void} */ it) =>
    { listeners[name] = it; } };
  const window = /** @type {{policyViolations?: () => string}} */ ({});
  const said = new Function('window', 'open', 'location', `return ${SNIPPET}`)(window, () => copy,
    { href: 'https://a.example/' });
  assert.match(said, /copy\(policyViolations\(\)\)$/);
  listeners.securitypolicyviolation({ effectiveDirective: 'img-src', blockedURI: 'data', lineNumber: 3,
    isTrusted: true });
  const [{ violation }] = readEvents(window.policyViolations?.() ?? '').rows;
  assert.deepEqual([violation.directive, violation.blocked, violation.line], ['img-src', 'data', 3]);
});

test('an empty list of events is read, and what was not looked at is said', () => {
  const { rows, unseen } = readEvents('[]');
  assert.deepEqual(rows, []);
  assert.match(unseen[0], /frames and workers/);
});

test('what an extension did is set apart', () => {
  const { rows, left } = readEvents(
    "Refused to load the script 'chrome-extension://abc/x.js' because it violates the following Content "
    + 'Security Policy directive: "script-src \'self\'".');
  assert.deepEqual([rows, left], [[], [{ line: 1, said: 'this is of chrome-extension, and is set apart' }]]);
});

for (const [text, message] of /** @type {[string, RegExp][]} */ ([
  ['Uncaught TypeError', /^no violation stands in this: "Uncaught TypeError"\. Give what the snippet copied/],
  ['[{"effectiveDirective"', /^this is no JSON \(.*\)\. Copy all that copy\(policyViolations\(\)\) gave\.$/],
  ['[{"effectiveDirective": "img-src"}, {}]', /^event 2 names no directive: "\{\}"\. Copy all/],
])) test(`refused: ${text}`, () => assert.throws(() => readEvents(text), { name: 'ReadingError', message }));
