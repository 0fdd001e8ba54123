import assert from 'node:assert/strict';
import { test } from 'node:test';
import { gzipSync } from 'node:zlib';
import { Pieces } from '../../readers/pieces.js';
import { Reports, Tally } from '../../readers/reports.js';
import { blockedBy, violationOf } from '../../readers/violations.js';
import { data } from './tree.js';

/** @param {import('../../readers/reports.js').Chunks} chunks */
const read = async chunks => {
  const reports = new Reports(chunks), rows = [];
  for await (const { violation, line } of reports) {
    rows.push(`${line} ${violation.directive} ${violation.blocked}`);
  }
  return { rows, left: reports.left, isWhole: reports.isWhole, reports };
};
const MIXED = {
  rows: [
    '1 img-src https://b.example/1.png', '2 script-src-elem inline', '3 font-src data',
    '4 style-src-attr inline',
    '5 media-src https://m.example/v.mp4', '7 connect-src https://c.example/',
    '8 frame-src https://f.example',
    '9 object-src https://o.example/', '16 worker-src blob', '17 manifest-src https://a.example/m.json',
    '24 base-uri https://b.example/', '25 script-src eval',
  ],
  left: [
    'lines that are no JSON, left out: 3, as '
      + 'line 6 ("{"csp-report": {"document-uri": "https://a.example/cut", "ef"), '
      + 'line 13 ("GET /health 200"), line 23 ("{"csp-report": {"effective-directive": "img-src",")',
    'values in which no report stands, left out: 1, as in line 15',
    'reports of browsers and their extensions, set apart: chrome-extension 1, moz-extension 1, about 1',
    'reports of other types, left out: deprecation 1',
  ],
  isWhole: false,
};
const PRETTY = {
  rows: ['2 img-src https://b.example/1.png', '5 font-src data', '6 media-src blob'], left: [], isWhole: true,
};
const bytes = (/** @type {string} */ text) => new TextEncoder().encode(text);
const cut = (/** @type {Uint8Array} */ all, /** @type {number} */ size) =>
  Array.from({ length: Math.ceil(all.length / size) }, (_, n) => all.subarray(n * size, (n + 1) * size));

for (const [name, expected] of /** @type {const} */ ([['mixed.log', MIXED], ['pretty.json', PRETTY]])) {
  const all = bytes(data(`reports/${name}`));
  for (const [how, chunks] of /** @type {[string, Uint8Array[]][]} */ ([
    ['whole', [all]], ['by the byte', cut(all, 1)], ['packed', cut(gzipSync(all), 100)],
  ])) test(`reports of ${name}, ${how}`, async () => {
    const { reports, ...got } = await read(chunks);
    assert.deepEqual(got, expected);
  });
}

test('an array on one line, longer than what is kept of it', async () => {
  const one = '{"csp-report": {"effective-directive": "img-src", "blocked-uri": "data"}}';
  const text = `[${Array.from({ length: 30_000 }, () => one).join(', ')}]\n${one}`;
  const { rows, left } = await read(cut(bytes(text), 10_000));
  assert.deepEqual([rows.length, rows[0], rows[30_000], left],
    [30_001, '1 img-src data', '2 img-src data', []]);
});

test('a line that never ends is passed over, and read on behind it', async () => {
  const one = '{"csp-report": {"effective-directive": "img-src", "blocked-uri": "data"}}';
  for (const junk of ['x'.repeat(3_000_000), `{"a": "${'x'.repeat(3_000_000)}`, '{"a":'.repeat(600_000)]) {
    const { rows, reports } = await read(cut(bytes(`${junk}\n${one}\n`), 50_000));
    assert.deepEqual([rows, reports.pieces.bad], [['2 img-src data'], 1]);
  }
});

test('a line that is cut off is told as soon as the next one begins', () => {
  const pieces = new Pieces();
  assert.deepEqual([...pieces.take('{"a": {"b": 1,\n{"c": 1}\n', false)], [{ line: 2, value: { c: 1 } }]);
  assert.deepEqual(pieces.badLines, [{ line: 1, found: '{"a": {"b": 1,' }]);
});

for (const [name, text] of [['nothing', ''], ['no report', '{"a": 1}'], ['white space', ' \n\n']]) {
  test(`${name} says nothing of what is blocked`, async () => {
    const { left, isWhole } = await read([text]);
    assert.equal(isWhole, false);
    assert.equal(left[left.length - 1], 'no report stands in this: it says nothing of what is blocked');
  });
}

test('a stream that breaks off', async () => {
  const packed = gzipSync(bytes(data('reports/pretty.json')));
  const { left, isWhole } = await read([packed.subarray(0, packed.length - 12)]);
  assert.equal(isWhole, false);
  assert.match(left[1], /^the stream breaks off, and what follows is not looked at: /);
});

test('what a report tells is kept', () => {
  const body = {
    documentURL: 'https://a.example/', effectiveDirective: 'script-src-elem', blockedURL: 'inline',
    sample: 'go()',
    originalPolicy: "script-src 'self'", disposition: 'report', sourceFile: 'https://a.example/',
    lineNumber: 4, columnNumber: 2,
  };
  assert.deepEqual(violationOf(body), {
    directive: 'script-src-elem', blocked: 'inline', disposition: 'report', policy: "script-src 'self'",
    page: 'https://a.example/', file: 'https://a.example/', line: 4, column: 2, sample: 'go()',
  });
  assert.equal(blockedBy(violationOf(body)).request?.note,
    'script-src-elem inline https://a.example/:4:2 go()');
});

test('the request of a violation', () => {
  const of = (/** @type {string} */ directive, /** @type {string} */ blocked, more = {}) => {
    const { request, ...rest } = blockedBy(violationOf({ effectiveDirective: directive, blockedURL: blocked,
      ...more }));
    const { note, digests, ...bare } = request ?? { kind: '' };
    return { ...bare, ...rest };
  };
  const url = 'https://b.example/x';
  assert.deepEqual(of('connect-src', 'wss://b.example/'),
    { kind: 'fetch', destination: '', url: 'wss://b.example/' });
  assert.deepEqual(of('frame-src', url), { kind: 'fetch', destination: 'iframe', url });
  assert.deepEqual(of('img-src', 'data'), { kind: 'fetch', destination: 'image', url: { scheme: 'data' } });
  assert.deepEqual(of('worker-src', 'blob:https://a.example/1'),
    { kind: 'fetch', destination: 'worker', url: { scheme: 'blob' } });
  assert.deepEqual(of('script-src-elem', url),
    { kind: 'fetch', destination: 'script', url, unknown: 'parser' });
  for (const policy of ["script-src 'Strict-Dynamic'", "script-src 'self'; script-src-elem 'strict-dynamic'",
    "default-src 'strict-dynamic'"]) {
    assert.deepEqual(of('script-src-elem', url, { originalPolicy: policy }),
      { kind: 'fetch', destination: 'script', url, 'parser-inserted': true });
  }
  for (const policy of ["default-src 'strict-dynamic'; script-src 'self'",
    "script-src 'self'; script-src 'strict-dynamic'"]) {
    assert.equal(of('script-src-elem', url, { originalPolicy: policy }).unknown, 'parser');
  }
  assert.deepEqual(of('style-src-attr', 'inline'),
    { kind: 'inline', type: 'style-attribute', unknown: 'text' });
  assert.deepEqual(of('script-src-elem', 'inline', { sample: 'javascript:go()' }),
    { kind: 'inline', type: 'navigation', unknown: 'text' });
  assert.deepEqual(of('script-src', 'eval'), { kind: 'eval' });
  assert.deepEqual(of('script-src', 'wasm-eval'), { kind: 'wasm' });
  assert.deepEqual(of('base-uri', url), { kind: 'base', url });
  assert.deepEqual(of('form-action', url), { kind: 'form', url });
  for (const [directive, blocked] of [['script-src', 'inline'], ['frame-ancestors', url],
    ['trusted-types', 'trusted-types-sink']]) {
    assert.equal(of(directive, blocked).leftOut, "its directive doesn't tell what was blocked");
  }
  assert.equal(of('img-src', 'weird').leftOut, "its blocked URI isn't what a page fetches");
});

test('violations that are alike are counted', () => {
  const tally = new Tally(2), of = (/** @type {string} */ blocked, /** @type {string} */ page, more = {}) =>
    violationOf({ effectiveDirective: 'img-src', blockedURL: blocked, documentURL: page, ...more });
  for (const page of ['https://a.example/1', 'https://a.example/2',
    'https://a.example/1']) tally.add(of('https://b.example/', page));
  tally.add(of('odd', 'https://a.example/1'));
  tally.add(of('data', 'https://a.example/1'));
  const { groups, left } = tally.ended();
  assert.deepEqual(groups.map(it => [it.count, [...it.pages], it.request?.url]), [
    [3, ['https://a.example/1', 'https://a.example/2'], 'https://b.example/'],
  ]);
  assert.deepEqual(left, [
    "left out, since its blocked URI isn't what a page fetches: 1",
    'violations of further kinds than 2, not looked at: 1',
  ]);
});
