import assert from 'node:assert/strict';
import { readFileSync } from 'node:fs';
import { test } from 'node:test';
import { readHar } from '../../readers/har.js';
import { parseHtml as parse } from './tree.js';

const POLICY = 'content-security-policy';

/**
 * An entry as Chromium's developer tools write it.
 * @param {string} url
 * @param {Record<string, any>} [of] `to`: its destination; `type`: Chromium's word; `by`: what began it
 */
const entry = (url, { to, type = 'other', by = { type: 'parser' }, from, sent = {}, got = {},
  ...rest } = {}) => {
  const { method = 'GET', status = 200, page = 'page_1', media = '', text, encoding } = rest;
  const pairs = (/** @type {Record<string, string>} */ of) =>
    Object.entries(of).map(([name, value]) => ({ name, value }));
  const headers = { ...to === undefined ? {} : { 'Sec-Fetch-Dest': to }, ...from ? { Referer: from } : {},
    ...sent };
  return {
    _initiator: by, _resourceType: type, pageref: page,
    request: { method, url, headers: pairs(headers) },
    response: { status, headers: pairs(got), content: { mimeType: media, text, encoding },
      redirectURL: got.location ?? '' },
  };
};
/** A recording of entries, one a second. */
const har = (/** @type {any[]} */ ...entries) => JSON.stringify({
  log: { entries: entries.map((it, n) =>
    ({ startedDateTime: new Date(Date.UTC(2026, 0, 1, 0, 0, n)).toISOString(), ...it })) },
});
const url = 'https://a.example/';
const page = (/** @type {string} */ text, more = {}) =>
  entry(url, { to: 'document', type: 'document', media: 'text/html', by: { type: 'other' }, text, ...more });
const read = (/** @type {any[]} */ ...entries) => readHar(har(...entries), { parse });
const bare = (/** @type {import('../../readers/html.js').Piece} */ { request: { note, ...request } }) =>
  request;
const requests = (/** @type {any[]} */ ...entries) => read(page('<p>'), ...entries).pages[0].pieces.map(bare);
const fetched = (/** @type {string} */ destination, /** @type {string[]} */ ...urls) =>
  ({ kind: 'fetch', destination, ...urls.length > 1 ? { urls } : { url: urls[0] }, 'parser-inserted': true });
const said = (/** @type {import('../../readers/html.js').Said[]} */ left) => left.map(it => it.said);

test('the example of the documents', () => {
  const file = (/** @type {string} */ name) =>
    readFileSync(new URL(`../../../examples/har/${name}`, import.meta.url), 'utf8');
  const { pages: [first, ...rest], left } = readHar(file('page.har'), { parse });
  assert.deepEqual(first.pieces.map(it => it.request), JSON.parse(file('requests.json')));
  assert.deepEqual(first.lines, file('policy.txt').split('\n').filter(it => it.startsWith(POLICY)));
  assert.deepEqual([first.url, first.origin, first.isEnforced],
    ['https://shop.example/', 'https://shop.example', true]);
  assert.deepEqual(rest.map(it => [it.role, it.url, it.frameOf]), [
    ['frame', 'https://pay.example.com/widget', first.url],
    ['worker', 'https://shop.example/js/worker.js', first.url],
    ['worker', 'https://shop.example/sw.js', first.url],
  ]);
  assert.deepEqual(left, []);
  assert.deepEqual(said(first.left), [
    'left out, since a request file has no destination json: https://shop.example/strings/en.json',
    "left out, since prefetches aren't judged: https://shop.example/checkout",
    'taken for image, with no Sec-Fetch-Dest: https://shop.example/favicon.ico',
    'left out, since nothing tells what it was for: https://shop.example/track?id=7',
  ]);
});

test('what a request was for: Sec-Fetch-Dest, else the resource type, else the media type', () => {
  const other = 'https://b.example/1';
  assert.deepEqual(requests(
    entry(other, { to: 'empty', type: 'fetch' }), entry(other, { to: 'image', type: 'script' }),
    entry(other, { type: 'stylesheet', media: 'image/png' }),
    entry(other, { media: 'text/javascript; charset=utf-8' }),
    entry('https://b.example/s', { to: 'websocket', type: 'websocket' }),
    entry('data:image/png;base64,AA', { to: 'image' }),
  ), [
    fetched('', other), fetched('image', other), fetched('style', other), fetched('script', other),
    fetched('', 'wss://b.example/s'), fetched('image', 'data:,'),
  ]);
});

test('redirects are one request', () => {
  const hop = (/** @type {string} */ from, /** @type {string} */ location, status = 302) =>
    entry(from, { to: 'image', type: 'image', status, got: { location } });
  const end = (/** @type {string} */ at, to = 'image') => entry(at, { to, type: to });
  assert.deepEqual(requests(hop('https://b.example/1', '/2'), hop('https://b.example/1', '/2'),
    end('https://b.example/2'), end('https://b.example/2', 'script'), end('https://b.example/2')), [
    fetched('image', 'https://b.example/1', 'https://b.example/2'),
    fetched('image', 'https://b.example/1', 'https://b.example/2'), fetched('script', 'https://b.example/2'),
  ]);
  assert.deepEqual(requests(hop('https://b.example/1', 'https://c.example', 308)),
    [fetched('image', 'https://b.example/1', 'https://c.example/')]);
  assert.deepEqual(requests(hop('https://b.example/1', '/2', 201)),
    [fetched('image', 'https://b.example/1')]);
  const { pages: [{ left }] } = read(page('<p>'), hop('https://b.example/1', '/2'));
  assert.deepEqual(said(left),
    ['no entry follows the last redirect: https://b.example/1 -> https://b.example/2']);
});

test('a request before its page is that of the page; one without a page is left out', () => {
  const image = entry('https://b.example/1.png', { to: 'image' });
  const { pages, left } = read(image, entry('https://b.example/2.png', { to: 'image', page: 'page_0' }),
    page('<p>'));
  assert.deepEqual(pages[0].pieces.map(bare), [fetched('image', 'https://b.example/1.png')]);
  assert.deepEqual(said(left), ['left out, since its page is not in the recording: https://b.example/2.png']);
});

test('preflights and reports are no requests', () => {
  const asks = { 'Access-Control-Request-Method': 'PUT' };
  assert.deepEqual(requests(
    entry('https://b.example/', { to: 'empty', method: 'OPTIONS', sent: asks }),
    entry('https://b.example/', { to: 'report' }),
    entry('https://b.example/', { to: 'empty', sent: { 'Content-Type': 'application/csp-report' } }),
    entry('https://b.example/', { to: 'empty', sent: { 'Content-Type': 'application/reports+json' } }),
  ), []);
});

test('each page has its own address, header and requests', () => {
  const { pages } = read(
    entry('http://a.example/',
      { to: 'document', type: 'document', status: 301, got: { location: url, [POLICY]: 'x' } }),
    page('<p>', { got: { [POLICY]: "img-src 'self'\nfont-src 'none'", 'x-frame-options': 'DENY' } }),
    entry('https://b.example/1.png', { to: 'image' }),
    page('<p style="a">', { page: 'page_2', got: { [`${POLICY}-report-only`]: "img-src 'none'" } }),
    entry('https://b.example/2.png', { to: 'image', page: 'page_2' }),
  );
  assert.deepEqual(pages.map(it => [it.url, it.lines, it.isEnforced, it.pieces.map(one => one.request.url)]),
    [
    [url, [`${POLICY}: img-src 'self'`, `${POLICY}: font-src 'none'`], true, ['https://b.example/1.png']],
    [url, [`${POLICY}-report-only: img-src 'none'`], false, [undefined, 'https://b.example/2.png']],
  ]);
  assert.match(pages[0].unseen[0],
    /^what the enforced policy blocked: this was recorded while a policy was enforced/);
  assert.ok(pages[1].unseen.every(it => !it.includes('enforced')));
});

test('what frames and workers load stands under them', () => {
  const frame = 'https://f.example/player', worker = 'https://a.example/w.js',
    script = (/** @type {string} */ at) =>
    ({ type: 'script', stack: { callFrames: [], parent: { callFrames: [{ url: at }] } } });
  const { pages, left } = read(
    page('<iframe src="https://f.example/player"></iframe><script src="/app.js"></script>'),
    entry(frame, { to: 'iframe', type: 'document', media: 'text/html', by: { type: 'parser', url }, from: url,
      text: '<script src="https://s.example/f.js" nonce="n"></script>',
      got: { [POLICY]: "script-src 'nonce-n'" } }),
    entry('https://s.example/f.js',
      { to: 'script', type: 'script', by: { type: 'parser', url: frame }, from: 'https://f.example/' }),
    entry('https://i.example/t.png',
      { to: 'image', type: 'image', by: script('https://s.example/f.js'), from: 'https://f.example/' }),
    entry('https://f.example/ads', { to: 'empty', type: 'fetch', by: { type: 'other' }, from: frame }),
    entry('https://a.example/app.js',
      { to: 'script', type: 'script', by: { type: 'parser', url }, from: url }),
    entry(worker, { to: 'worker', type: 'script', by: script('https://a.example/app.js'), from: url }),
    entry('https://c.example/', { to: 'empty', type: 'fetch', by: { type: 'other' }, from: worker }),
    entry('https://c.example/page', { to: 'empty', type: 'fetch', by: { type: 'other' } }),
  );
  assert.deepEqual(pages.map(it => [it.role, it.url, it.pieces.flatMap(one => one.request.url ?? [])]), [
    ['page', url, [frame, 'https://a.example/app.js', worker, 'https://c.example/page']],
    ['frame', frame, ['https://s.example/f.js', 'https://i.example/t.png', 'https://f.example/ads']],
    ['worker', worker, ['https://c.example/']],
  ]);
  assert.deepEqual(bare(pages[1].pieces[0]), { ...fetched('script', 'https://s.example/f.js'), nonce: 'n' });
  assert.deepEqual(left, []);
});

test('a script that page and frame both load is told apart by the origin in Referer', () => {
  const frame = 'https://f.example/player', lib = 'https://s.example/lib.js';
  const began = { type: 'script', stack: { callFrames: [{ url: lib }] } };
  const { pages, left } = read(
    page('<p>'), entry(frame, { to: 'iframe', type: 'document', media: 'text/html', from: url }),
    entry(lib, { to: 'script', from: url }), entry(lib, { to: 'script', from: 'https://f.example/' }),
    entry('https://i.example/1.png', { to: 'image', by: began, from: 'https://f.example/' }),
    entry('https://i.example/2.png', { to: 'image', by: began, from: url }),
  );
  assert.deepEqual(pages.map(it => it.pieces.map(one => one.request.url)), [
    [frame, lib, 'https://i.example/2.png'], [lib, 'https://i.example/1.png'],
  ]);
  assert.deepEqual(left, []);
});

test('where a page and a frame of its origin may be meant, the page is taken, and that is said', () => {
  const { pages, left } = read(
    page('<p>'), entry('https://a.example/f',
      { to: 'iframe', type: 'document', media: 'text/html', from: url }),
    entry('https://b.example/x', { to: 'empty', by: { type: 'other' }, from: url }),
    entry('https://b.example/x', { to: 'empty', by: { type: 'other' }, from: 'https://a.example/' }),
  );
  assert.deepEqual(pages.map(it => it.pieces.length), [3, 0]);
  assert.deepEqual(said(left), [
    'requests of which several pages or frames may be the origin, taken for those of the first: 2',
  ]);
});

test('a request of an element has what the HTML says of it', () => {
  const text = '<script src="/a.js" nonce="n" integrity="sha256-x"></script>\n<img src="/b.png">'
    + '<img srcset="/c.png 1x, /d.png 2x"><script src="/e.js" nonce="m"></script>';
  const { pages: [{ pieces, unseen }] } = read(
    page(Buffer.from(text).toString('base64'), { encoding: 'base64' }),
    entry('https://a.example/a.js',
      { to: 'script', type: 'script', status: 302, got: { location: '/moved.js' } }),
    entry('https://a.example/moved.js', { to: 'script', type: 'script' }),
    entry('https://a.example/c.png', { to: 'image', type: 'image', by: { type: 'other' } }),
    entry('https://a.example/e.js', { to: 'script', type: 'script', by: { type: 'script' } }),
  );
  assert.deepEqual(pieces.filter(it => it.request.kind === 'fetch').map(it =>
    [bare(it), it.line, it.possible]), [
    [{ ...fetched('script', 'https://a.example/a.js', 'https://a.example/moved.js'), nonce: 'n',
      integrity: 'sha256-x' }, 1, undefined],
    [{ kind: 'fetch', destination: 'image', url: 'https://a.example/b.png' }, 2, undefined],
    [{ kind: 'fetch', destination: 'image', url: 'https://a.example/c.png' }, 2, undefined],
    [{ kind: 'fetch', destination: 'image', url: 'https://a.example/d.png' }, 2, true],
    [{ ...fetched('script', 'https://a.example/e.js'), nonce: 'm' }, 2, undefined],
    [{ kind: 'fetch', destination: 'script', url: 'https://a.example/e.js' }, undefined, undefined],
  ]);
  assert.ok(unseen.every(it => !it.includes('no text of this page')));
});

test('what the text of a script names is possible', () => {
  const { pages: [{ pieces }] } = read(page('<script>new Worker(URL.createObjectURL(x))</script>'),
    entry('https://b.example/x.js', { to: 'script', media: 'text/javascript', text: 'go();\neval(x)' }));
  assert.deepEqual(pieces.slice(1).map(it => [it.said, it.request.kind, it.possible]), [
    ['a worker of a blob in a script', 'fetch', true],
    ['the page needs scripts', 'capability', undefined],
    ['script https://b.example/x.js', 'fetch', undefined],
    ['eval in https://b.example/x.js, line 2', 'eval', true],
  ]);
});

test('a request that was recorded is under the meta policies of the page', () => {
  const text = '<head><meta http-equiv="Content-Security-Policy" content="img-src a.example">';
  const { pages: [{ pieces, isEnforced }] } = read(page(text),
    entry('https://b.example/1.png', { to: 'image', by: { type: 'script' } }));
  assert.deepEqual(pieces.map(it => it.meta), [['Meta-Content-Security-Policy: img-src a.example']]);
  assert.equal(isEnforced, true);
});

test('what a recording lacks is said', () => {
  const { pages: [{ unseen, left }] } = read(
    entry(url, { to: 'document', type: 'document', media: 'text/html', status: 304 }),
    entry('https://b.example/x.js', { to: 'script', by: undefined }));
  assert.deepEqual(unseen, [
    'inline code, nonces, integrity, forms and meta policies, since the recording has no text of this page: '
      + 'not looked at (export the HAR with content)',
    'eval, WebAssembly and styles that scripts set, where the text of no script in the recording names them: '
      + 'not looked at',
    'inline code and handlers that scripts insert: not looked at',
    'blob: URLs, and the data: URLs that scripts and style sheets load: not looked at',
    'who frames the page: not looked at',
  ]);
  assert.deepEqual(said(left), [
    'the page came from the cache (status 304), and its headers may be missing: record it without cache',
  ]);
});

for (const [name, text, message] of [
  ['no JSON', '<html>', /^x\.har: this is no JSON \(.*\)\. Give a HAR, as "Export HAR" of Chromium/],
  ['no entries', '{"log":{}}', /^x\.har: this is no HAR: log\.entries is no array\. Give a HAR/],
  ['an entry without a URL', '{"log":{"entries":[{"request":{"url":"a:"}},{}]}}',
    /^x\.har: this is no HAR: entry 2 has no URL\. /],
  ['no page', har(entry('https://b.example/', { to: 'image' })),
    /^x\.har: the page's own answer isn't in this recording\. Reload the page/],
]) test(`refused: ${name}`,
  () => assert.throws(() => readHar(String(text), { parse, name: 'x.har' }),
  { name: 'ReadingError', message }));
