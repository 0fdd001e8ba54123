/** The engine answers as the proved program does: what the gate keeps of it, and what the documents show. */
import assert from 'node:assert/strict';
import { readdirSync } from 'node:fs';
import { join } from 'node:path';
import test from 'node:test';
import { Engine, loadEngine } from '../engine.js';
import { TOP, ask, contentOf } from './shared.js';

test('what the gate keeps of the program is answered byte for byte', () => {
  const data = 'crates/csp_sample/data';
  const runs = [...contentOf(`${data}/examples.runs`).toString().matchAll(/^=== (.*)$/gm)];
  const kept = contentOf('crates/csp_sample/stdout').toString();
  assert.ok(runs.length >= 20);
  for (const [row, line] of runs) {
    const { code, text } = ask(line.split(' '), join(TOP, data));
    assert.ok(kept.includes(`${row}\nexit code ${code}\n${text}`), `${line}\n${text}`);
  }
});

// The commands of the documents that are the program alone, with the lines below them
const transcripts = () => {
  const documents = ['README.md', ...readdirSync(join(TOP, 'docs')).map(it => `docs/${it}`)]
    .filter(it => it.endsWith('.md'));
  const blocks = documents.flatMap(path => contentOf(path).toString().split(/^```.*\n/m)
    .filter((_, n) => n % 2 === 1).map(block => [path, block]));
  return blocks.flatMap(([path, block]) => block.split(/^\$ /m).slice(1)
    .map(it => [path, it.split('\n', 1)[0], it.slice(it.indexOf('\n') + 1)]));
};

test('what the documents show is answered so', () => {
  const plain = transcripts().filter(([, command]) => /^\.\/csp (?!--)[^|<>;&$]*$/.test(command)
    && command.split(' ').slice(3).every(it => it.startsWith('examples/') || it.startsWith('https:')));
  assert.ok(plain.length > 0);
  for (const [path, command, said] of plain) {
    const { text } = ask(command.split(' ').slice(1), TOP);
    assert.equal(text.trimEnd(), said.trimEnd(), `${path}: ${command}`);
  }
});

test('the help that stands in front of the program lists its commands', () => {
  const told = contentOf('packaging/front.bash').toString().match(/^  csp [a-z]+( [A-Z]+)+/gm)
    .map(it => it.slice('  csp '.length).replace('NEW OLD', 'FIRST SECOND'));
  assert.deepEqual(told.sort(), ask([], TOP).text.match(/[a-z]+( [A-Z]+)+/g).sort());
});

test('a module, its bytes and a view of them give an engine', async () => {
  const bytes = contentOf('dist/engine.wasm'), module = await WebAssembly.compile(bytes);
  for (const given of [module, bytes, new Uint8Array(bytes).buffer]) {
    const loaded = await loadEngine(given);
    assert.ok(loaded instanceof Engine);
    assert.match(loaded.call(['drill', '3']).text, /^drill 3 found\n/);
  }
  assert.deepEqual(WebAssembly.Module.imports(module), []);
  await assert.rejects(loadEngine(), /give loadEngine the module/);
  const names = WebAssembly.Module.exports(module).map(it => it.name).sort();
  assert.deepEqual(names, ['csp_page', 'memory', 'page_take']);
});

test('an answer that is longer than the first room for it comes whole', async () => {
  const hosts = Array.from({ length: 1000 }, (_, n) => `https://h${n}.example`).join(' ');
  const images = Array.from({ length: 100 }, () => ({ kind: 'fetch', destination: 'image', url: 'data:,' }));
  const files = [['p', `Content-Security-Policy: img-src ${hosts}`], ['r', JSON.stringify(images)]];
  const loaded = await loadEngine(contentOf('dist/engine.wasm'));
  const { code, bytes, text } = loaded.call(['report', 'https://a.example', 'p', 'r'], files);
  assert.equal(code, 0);
  assert.ok(bytes.length > 1 << 20);
  assert.ok(text.endsWith('reporter tally\nimg-src 100\n'));
});
