/** The types: tsc accepts the library, makes declarations of it, and tells a user's mistakes. */
import assert from 'node:assert/strict';
import { spawnSync } from 'node:child_process';
import { existsSync, mkdirSync, writeFileSync } from 'node:fs';
import { join } from 'node:path';
import test from 'node:test';
import { STRICT, TOP, contentOf, has, temporaryFolder } from './shared.js';

const folder = temporaryFolder();
const JS = join(TOP, 'js'), PACKAGE = join(folder, 'node_modules/guidecerise');
const skip = !has('tsc') && 'tsc is missing: apt-get install node-typescript';
const tsc = (...words) => {
  const { stdout, status } = spawnSync('tsc', words, { cwd: folder, encoding: 'utf8' });
  return { stdout, status };
};

test('the library is accepted, and declarations are made of it', { skip }, () => {
  mkdirSync(PACKAGE, { recursive: true });
  writeFileSync(join(PACKAGE, 'package.json'), contentOf('js/package.json'));
  const made = tsc('-p', join(JS, 'tsconfig.types.json'), '--outDir', join(PACKAGE, 'types'));
  assert.deepEqual(made, { stdout: '', status: 0 });
  assert.ok(existsSync(join(PACKAGE, 'types/node.d.ts')));
});

const TYPES = [join(JS, 'node_modules/@types'), '/usr/share/nodejs/@types'];
const types = TYPES.find(it => existsSync(join(it, 'node')));
const skipCommand = skip || types === undefined && 'the types of Node are missing: Debian\'s nodejs has them';

test('the command is accepted', { skip: skipCommand }, () => {
  assert.deepEqual(tsc('-p', JS, '--typeRoots', types), { stdout: '', status: 0 });
});

test('a user is accepted', { skip }, () => {
  writeFileSync(join(folder, 'user.ts'), contentOf('examples/call/typescript.ts'));
  assert.deepEqual(tsc(...STRICT, 'user.ts'), { stdout: '', status: 0 });
});

const MISTAKES = [
  "judge(engine, { origin, headers: '', requests: [{ kind: 'fetch', destination: 'beacon', url: '' }] })",
  "judge(engine, { origin, headers: '' })",
  "(it => it.weaker ? it.proof : '')(compare(engine, { origin, new: '', old: '' }))",
];

test('a destination that is none, a lacking member and the proof of a no are refused', { skip }, () => {
  const head = `import { compare, judge, loadEngine } from 'guidecerise';
const engine = await loadEngine(), origin = 'https://a.example';
`;
  writeFileSync(join(folder, 'wrong.ts'), head + MISTAKES.map(it => `${it};\n`).join(''));
  const { stdout, status } = tsc(...STRICT, 'wrong.ts');
  assert.equal(status, 2);
  const lines = [...stdout.matchAll(/^wrong\.ts\((\d+),\d+\): error TS/gm)].map(it => it[1]);
  assert.deepEqual(lines, ['3', '4', '5']);
});
