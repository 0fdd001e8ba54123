/** The library without Node's parts: bundled for a browser and for a worker, and run there. */
import assert from 'node:assert/strict';
import { spawn, spawnSync } from 'node:child_process';
import { copyFileSync, cpSync, readFileSync, writeFileSync } from 'node:fs';
import { createServer } from 'node:http';
import { join } from 'node:path';
import { gzipSync } from 'node:zlib';
import test from 'node:test';
import vm from 'node:vm';
import { TOP, contentOf, has, temporaryFolder } from './shared.js';

const folder = temporaryFolder();
const installed = join(folder, 'node_modules/guidecerise');
cpSync(join(TOP, 'js'), installed, { recursive: true });
copyFileSync(join(TOP, 'dist/engine.wasm'), join(installed, 'engine.wasm'));
const skip = !has('esbuild') && 'esbuild is missing: apt-get install esbuild';

const LIBRARY = `
import { judge, loadEngine, Refusal } from 'guidecerise';
const requests = [{ kind: 'fetch', destination: 'image', url: 'https://b.example/' }, { kind: 'eval' }];
const given = { origin: 'https://a.example', headers: 'Content-Security-Policy: img-src data:' };
globalThis.asked = async module => {
  const engine = await loadEngine(module);
  let refusal;
  try {
    judge(engine, { ...given, requests: [{}] });
  } catch (error) {
    refusal = error instanceof Refusal && error.code;
  }
  return [...judge(engine, { ...given, requests }).map(it => it.blocked), refusal].join(' ');
};
`;
const ANSWER = 'true false bad-requests';

const bundled = (source, ...options) => {
  writeFileSync(join(folder, 'entry.js'), source);
  const words = ['entry.js', '--bundle', '--outfile=out.js', '--log-level=warning', ...options];
  const { stderr, status } = spawnSync('esbuild', words, { cwd: folder, encoding: 'utf8' });
  assert.deepEqual([stderr, status], ['', 0]);
  return readFileSync(join(folder, 'out.js'), 'utf8');
};

for (const [name, options] of Object.entries({
  'a browser': ['--platform=browser', '--format=iife'],
  'a worker': ['--platform=neutral', '--conditions=workerd,worker', '--format=iife'],
})) {
  test(`bundled for ${name}, it runs where there is nothing of Node`, { skip }, async t => {
    const code = bundled(LIBRARY, '--minify', ...options);
    const context = vm.createContext({ TextEncoder, TextDecoder, WebAssembly, URL });
    vm.runInContext(code, context);
    assert.equal(await context.asked(await WebAssembly.compile(contentOf('dist/engine.wasm'))), ANSWER);
    t.diagnostic(`${code.length} bytes, ${gzipSync(code).length} compressed`);
    assert.ok(code.length < 20_000);
  });
}

const IN_CHROMIUM = `
import bytes from 'guidecerise/engine.wasm';
${LIBRARY}
if (globalThis.document === undefined) asked(bytes).then(postMessage);
else {
  const worker = new Worker('out.js');
  worker.onmessage = async ({ data }) => {
    const body = 'page: ' + await asked(bytes) + ', worker: ' + data;
    fetch('answer', { method: 'POST', body });
  };
}
`;

// Opens the page of this script in Chromium, and answers what it sends.
const inChromium = code => new Promise((resolve, reject) => {
  const server = createServer((request, response) => {
    if (request.method === 'POST') request.on('data', it => finish(() => resolve(it.toString())));
    const [type, content] = request.url === '/out.js' ? ['text/javascript', code]
      : ['text/html', '<!doctype html><script src="out.js"></script>'];
    response.setHeader('Content-Type', type);
    response.end(content);
  }).listen(0, '127.0.0.1', () => {
    const url = `http://127.0.0.1:${server.address().port}/`;
    const profile = `--user-data-dir=${join(folder, 'profile')}`;
    const words = ['--headless', '--no-sandbox', '--disable-gpu', profile];
    browser = spawn('chromium', [...words, url], { stdio: 'ignore', detached: true });
    browser.on('error', it => finish(() => reject(it)));
  });
  let browser;
  const end = setTimeout(() => finish(() => reject(new Error('no answer of Chromium in a minute'))), 60_000);
  const finish = then => {
    clearTimeout(end);
    server.close();
    server.closeAllConnections();
    browser.on('exit', then);
    process.kill(-browser.pid);
  };
});

const skipChromium = skip || !has('chromium') && 'chromium is missing';

test('in Chromium, on a page and in a worker', { skip: skipChromium }, async () => {
  const code = bundled(IN_CHROMIUM, '--platform=browser', '--format=iife', '--loader:.wasm=binary');
  assert.equal(await inChromium(code), `page: ${ANSWER}, worker: ${ANSWER}`);
});
