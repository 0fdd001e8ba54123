import assert from 'node:assert/strict';
import { test } from 'node:test';
import { domTree } from '../../readers/dom.js';
import { readHtml } from '../../readers/html.js';

// Nodes as a browser's parser makes them, as far as the walk asks
const HTML = 'http://www.w3.org/1999/xhtml';
const text = (/** @type {string} */ data) => ({ nodeType: 3, data, childNodes: [] });
const element = (/** @type {string} */ localName, /** @type {Record<string, string>} */ attributes,
  /** @type {any[]} */ ...childNodes) => ({
  nodeType: 1, localName, namespaceURI: HTML, childNodes,
  attributes: Object.entries(attributes).map(([name, value]) => ({ name, value })),
  ...localName === 'template' ? { childNodes: [], content: { nodeType: 11, childNodes } } : {},
});

test('the tree of a browser is read as that of parse5, without lines', () => {
  const root = /** @type {any} */ ({ nodeType: 9, childNodes: [element('html', {},
    element('head', {}, element('meta',
      { 'http-equiv': 'Content-Security-Policy', content: "img-src 'self'" })),
    element('body', { onload: 'go()' },
      element('script', { nonce: 'n' }, text('a'), text('b')),
      element('template', {}, element('img', { src: 'x.png' })),
      element('template', { shadowrootmode: 'open' }, element('img', { src: 'y.png' }))))] });
  const { pieces, unseen } = readHtml('', { url: 'https://a.example/', parse: () => domTree(root) });
  assert.deepEqual(pieces.map(it => [it.request, it.line]), [
    [{ kind: 'inline', type: 'script-attribute', source: 'go()', note: 'onload of <body>' }, undefined],
    [{
      kind: 'inline', type: 'script', source: 'ab', element: { tag: 'script', attributes: [['nonce', 'n']] },
      note: '<script>',
    }, undefined],
    [{ kind: 'fetch', destination: 'image', url: 'https://a.example/y.png', note: 'src of <img>' },
      undefined],
    [{ kind: 'capability', name: 'scripts', note: 'the page needs scripts' }, undefined],
  ]);
  assert.deepEqual(pieces[0].meta, ["Meta-Content-Security-Policy: img-src 'self'"]);
  assert.equal(unseen[4], 'what stands in <template>, of which there are 1: not looked at');
});
