/** The archive of npm: installed in an empty folder, its command and its library answer. */
import assert from 'node:assert/strict';
import { spawnSync } from 'node:child_process';
import { existsSync, writeFileSync } from 'node:fs';
import { join } from 'node:path';
import test from 'node:test';
import { STRICT, TOP, contentOf, has, temporaryFolder } from './shared.js';

const folder = temporaryFolder();
const run = (...words) => {
  const env = { ...process.env, npm_config_cache: join(folder, 'cache') };
  const ran = spawnSync(words[0], words.slice(1), { cwd: folder, encoding: 'utf8', env });
  const { stdout, stderr, status } = ran;
  assert.equal(status, 0, `${words.join(' ')}\n${stdout}${stderr}`);
  return stdout;
};

// No registry is asked: what the package depends on is taken from where Debian has it.
const SHARED = '/usr/share/nodejs', DEPENDENCIES = ['entities', 'parse5'];
const missing = [
  ...['npm', 'tsc'].filter(it => !has(it)), ...DEPENDENCIES.filter(it => !existsSync(join(SHARED, it))),
];
const skip = missing.length > 0 && `missing: ${missing.join(', ')}`;

test('an empty folder installs it and asks', { skip }, () => {
  const archive = run(join(TOP, 'packaging/npm')).trim();
  for (const it of DEPENDENCIES) {
    run('tar', 'czf', `${it}.tgz`, '--dereference', '--transform', `s,^${it},package,`, '-C', SHARED, it);
  }
  writeFileSync(join(folder, 'package.json'), '{}');
  const files = DEPENDENCIES.map(it => `./${it}.tgz`);
  run('npm', 'install', '--offline', '--silent', ...files, join(TOP, 'packaging/out', archive));
  assert.equal(run('node_modules/.bin/guidecerise', '--version'), `guidecerise ${contentOf('VERSION')}`);
  writeFileSync(join(folder, 'user.mjs'), contentOf('examples/call/javascript.mjs'));
  assert.match(run('node', 'user.mjs'), /^weaker: /);
  writeFileSync(join(folder, 'user.ts'), contentOf('examples/call/typescript.ts'));
  run('tsc', ...STRICT, 'user.ts');
});
