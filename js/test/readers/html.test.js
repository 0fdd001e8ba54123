import assert from 'node:assert/strict';
import { test } from 'node:test';
import { srcsetUrls } from '../../readers/elements.js';
import { readHtml } from '../../readers/html.js';
import { data, parseHtml as parse } from './tree.js';

const url = 'https://a.example/shop/page.html';
const read = (/** @type {string} */ text) => readHtml(text, { url, parse });

/** @param {import('../../readers/html.js').Piece} piece */
const row = ({ request, line, column, possible }) => {
  const { kind, type, destination, url: to, source, name, nonce, integrity, element } = request;
  const given = element?.attributes.find((/** @type {string[]} */ it) => it[0] === 'nonce')?.[1];
  return [
    ...line === undefined ? [] : [`${line}:${column}`],
    type ?? (destination === '' ? 'connect' : destination) ?? kind,
    to ?? source ?? name, ...[nonce ?? given].flatMap(it => it === undefined ? [] : [`nonce ${it}`]),
    ...integrity === undefined ? [] : [`integrity ${integrity}`],
    ...request['parser-inserted'] ? ['parser'] : [], ...element?.['duplicate-attribute'] ? ['doubled'] : [],
    ...possible ? ['possible'] : [],
  ].join(' ');
};
const told = (/** @type {import('../../readers/html.js').Said[]} */ list) =>
  list.map(({ line, said }) => `${line} ${said}`);

for (const [name, expected] of Object.entries(JSON.parse(data('html.json')))) {
  test(`what ${name} holds`, () => {
    const { pieces, left, taken, unseen } = read(data(`html/${name}`));
    const got = {
      pieces: pieces.map(row), left: told(left), taken: told(taken), unseen: unseen.slice(4),
      under: Object.fromEntries(pieces.filter(it => it.meta.length > 0).map(it =>
        [row(it), it.meta.map(one => one.slice(30))])),
    };
    assert.deepEqual(got, { taken: [], left: [], unseen: [], under: {}, ...expected });
  });
}

test('what is never looked at in HTML is said', () => {
  assert.deepEqual(read('').unseen, [
    'what scripts do as they run (calls, sockets, workers, code and elements that they insert): '
      + 'not looked at',
    'eval, WebAssembly and styles that scripts set, where the text of no script in the page names them: '
      + 'not looked at',
    'what style sheets, frames and modules load in their turn: not looked at',
    'who frames the page: not looked at',
  ]);
});

test('upgrade-insecure-requests is not looked at, which is said', () => {
  const said = 'upgrade-insecure-requests, by which browsers load URLs of http by https: not looked at';
  const of = (/** @type {string} */ line) =>
    readHtml('', { url, parse, lines: [line] }).unseen.includes(said);
  assert.ok(of("Content-Security-Policy: img-src 'self'; Upgrade-Insecure-Requests"));
  assert.ok(!of('Content-Security-Policy: report-uri /upgrade-insecure-requests'));
});

test('a request says what it is of', () => {
  const { pieces, origin } = read('<p>\n<button onclick="go()">');
  assert.equal(origin, 'https://a.example');
  assert.deepEqual(pieces[0], {
    request: { kind: 'inline', type: 'script-attribute', source: 'go()',
      note: 'line 2: onclick of <button>' },
    meta: [], said: 'onclick of <button>', line: 2, column: 9,
  });
});

test('where base is blocked, URLs begin at the page', () => {
  const text = '<base href="https://b.example/"><img src="x.png">';
  const { pieces, left } = readHtml(text, { url, parse, isBaseBlocked: true });
  assert.deepEqual(pieces.map(it => it.request.url), ['https://b.example/', 'https://a.example/shop/x.png']);
  assert.deepEqual(told(left), ['1 <base> is taken to be blocked: relative URLs begin at the page']);
});

test('the text of a script is that of the page, with its line ends made one', () => {
  assert.equal(read('<script>a\r\nb&amp;\rc</script>').pieces[0].request.source, 'a\nb&amp;\nc');
});

test('what the text of a script names is possible', () => {
  const text = `<p>
<script>
  f.eval(1); evaluate(1); eval('1'); new Function('a', 'b')();
  setTimeout("go()", 1); setTimeout(go, 1); setTimeout('x'); WebAssembly.instantiateStreaming(x);
  it.setAttribute('style', 'color: red');
  document.createElement("style"); document.createElement('p');
  new Worker(URL.createObjectURL(new Blob([])));
</script><script type="text/plain">eval(1)</script>`;
  const { pieces } = read(text);
  assert.deepEqual(pieces.filter(it => it.possible).map(it => `${it.line} ${it.said}`), [
    '3 eval in a script', '3 Function in a script', '4 a timer of a string in a script',
    '4 a timer of a string in a script', '4 WebAssembly in a script',
    '5 a style attribute that is set in a script',
    '6 a style element that is made in a script', '7 a worker of a blob in a script',
  ]);
  assert.deepEqual(pieces.filter(it => it.possible).map(it => it.request.kind), [
    'eval', 'eval', 'eval', 'eval', 'wasm', 'inline', 'inline', 'fetch',
  ]);
});

test('an address of a page that is none', () => {
  const message = 'this is no address of a page: "shop". Write one as https://www.example/.';
  assert.throws(() => readHtml('', { url: 'shop', parse }), { name: 'ReadingError', message });
});

test('candidates of srcset', () => {
  for (const [text, expected] of /** @type {[string, string[]][]} */ ([
    ['a.png', ['a.png']], ['a.png, b.png 2x', ['a.png', 'b.png']],
    [' a.png 100w,b.png 2x,', ['a.png', 'b.png']],
    ['a,b.png 1x, c.png', ['a,b.png', 'c.png']],
    ['data:image/png;base64,AA== 2x', ['data:image/png;base64,AA==']],
    ['a.png x(1,2), b.png', ['a.png', 'b.png']], ['', []], [' , ', []],
  ])) assert.deepEqual(srcsetUrls(text), expected, text);
});
