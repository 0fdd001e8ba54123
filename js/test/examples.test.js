/** The users of examples/call, each run as its reader would run it, with the package installed. */
import assert from 'node:assert/strict';
import { spawnSync } from 'node:child_process';
import { mkdirSync, symlinkSync, writeFileSync } from 'node:fs';
import { join } from 'node:path';
import test from 'node:test';
import { TOP, contentOf, has, temporaryFolder } from './shared.js';

const folder = temporaryFolder();
mkdirSync(join(folder, 'node_modules/.bin'), { recursive: true });
symlinkSync(join(TOP, 'js'), join(folder, 'node_modules/guidecerise'));
symlinkSync('../guidecerise/bin/guidecerise.js', join(folder, 'node_modules/.bin/guidecerise'));
symlinkSync(join(TOP, 'examples'), join(folder, 'examples'));

const PATH = `${join(folder, 'node_modules/.bin')}:${process.env.PATH}`;
const run = (...words) => {
  const options = { cwd: folder, encoding: 'utf8', env: { ...process.env, PATH } };
  const { stdout, stderr, status } = spawnSync(words[0], words.slice(1), options);
  return [stdout, stderr, status];
};
const copied = name => {
  writeFileSync(join(folder, name), contentOf(join('examples/call', name)));
  return name;
};

test('the documents show them as they are', () => {
  const shown = contentOf('docs/LIBRARY.md').toString();
  for (const it of ['javascript.mjs', 'propose.mjs', 'typescript.ts', 'python.py', 'shell.sh']) {
    assert.ok(shown.includes(`\n${contentOf(join('examples/call', it))}\`\`\`\n`), it);
  }
});

test('JavaScript', () => {
  const said = 'weaker: https://other.cdn.example.net/ is now allowed\n';
  assert.deepEqual(run('node', copied('javascript.mjs')), [said, '', 0]);
});

test('a proposal', () => {
  const [stdout, ...rest] = run('node', '--import', join(TOP, 'js/test/debian.js'), copied('propose.mjs'));
  assert.equal(stdout, "Content-Security-Policy: default-src 'none'; script-src 'nonce-RANDOM' "
    + "'strict-dynamic' https: 'unsafe-inline'; object-src 'none'; base-uri 'none'; form-action 'none'; "
    + "frame-ancestors 'none'\n\n"
    + 'line 1: src of <script> has to get the nonce\n'
    + 'line 1: onclick of <p>: move it to a script, with addEventListener\n');
  assert.deepEqual(rest, ['', 0]);
});

test('TypeScript', { skip: !has('esbuild') && 'esbuild is missing' }, () => {
  copied('typescript.ts');
  const words = ['typescript.ts', '--format=esm', '--outfile=typescript.mjs', '--log-level=error'];
  assert.deepEqual(run('esbuild', ...words), ['', '', 0]);
  assert.deepEqual(run('node', 'typescript.mjs'), ['1 blocked by default-src\n2 allowed\n', '', 0]);
});

test('Python', { skip: !has('python3') && 'python3 is missing' }, () => {
  const said = 'img-src https://other.cdn.example.net/\n';
  assert.deepEqual(run('python3', copied('python.py')), [said, '', 0]);
});

test('a shell', () => {
  const shell = (...words) => run('sh', copied('shell.sh'), ...words).slice(1);
  assert.deepEqual(shell('examples/stricter/new.txt', 'examples/stricter/old.txt'), ['', 0]);
  const weaker = shell('examples/weaker/new.txt', 'examples/weaker/old.txt');
  assert.deepEqual(weaker, ['the header became weaker\n', 1]);
  const nothing = shell('examples/nothing/new.txt', 'examples/nothing/old.txt');
  assert.deepEqual(nothing, ['there is no answer\n', 2]);
});
