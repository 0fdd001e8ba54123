/** The steps for build servers: the shell of each, over examples/ci. */
import assert from 'node:assert/strict';
import { spawnSync } from 'node:child_process';
import { mkdirSync, symlinkSync, writeFileSync } from 'node:fs';
import { join } from 'node:path';
import test from 'node:test';
import { TOP, contentOf, temporaryFolder } from './shared.js';

const folder = temporaryFolder();
symlinkSync(join(TOP, 'js/bin/guidecerise.js'), join(folder, 'guidecerise'));
const accepted = join(folder, 'accepted.txt');
writeFileSync(accepted, '# decided in review\nimg-src data: for icons\nscript-src https: nothing yet\n');

// The text behind the last `|` of a file of YAML, which is the shell of a step
const shellOf = path => contentOf(path).toString().split(/\|\n/).at(-1);
const step = (path, environment) => {
  const PATH = `${folder}:${process.env.PATH}`;
  const env = { ...process.env, PATH, GITHUB_ACTION_PATH: TOP, ...environment };
  const ran = spawnSync('bash', ['-e', '-c', shellOf(path)], { cwd: TOP, encoding: 'utf8', env });
  const { stdout, stderr, status } = ran;
  return { stdout, stderr, status };
};

const STRICTER = { NEW: 'examples/ci/stricter.txt' }, WEAKER = { NEW: 'examples/ci/weaker.txt' };
const REASONS =
  /^Not weaker but for what is accepted: .*\nAccepted: img-src data:: for icons\.\n.* script-src h/m;
const CASES = [
  [STRICTER, /^Not weaker: /m, 0],
  [WEAKER, /^Weaker: /m, 1],
  [{ ...WEAKER, ACCEPTED: accepted }, REASONS, 0],
  [{ ...STRICTER, OLD: 'examples/nothing/old.txt' }, /^No answer: .* blocks nothing/m, 15],
];

for (const [given, said, code] of CASES) {
  const values = { ORIGIN: 'https://a.example', OLD: 'examples/ci/old.txt', ACCEPTED: '', ...given };
  test(`${values.NEW} against ${values.OLD}${values.ACCEPTED && ', accepted'}`, () => {
    const github = step('action.yml', values);
    assert.match(github.stdout, said);
    assert.deepEqual([github.stderr, github.status], ['', code]);
    const line = 'file=examples/ci/weaker.txt,line=1,title=img-src::img-src is weaker: image data: is now';
    const level = { '0': values.ACCEPTED ? '::warning ' : undefined, '1': '::error ' }[code];
    assert.equal(github.stdout.startsWith(`${level}${line}`), level !== undefined, github.stdout);
    const gitlab = step('packaging/gitlab.yml',
      Object.fromEntries(Object.entries(values).map(([name, value]) => [`CSP_${name}`, value])));
    assert.match(gitlab.stdout, said);
    assert.equal(gitlab.status, code);
  });
}

test('a line without a reason is refused', () => {
  writeFileSync(join(folder, 'bare.txt'), 'img-src\n');
  const values = { ...WEAKER, ORIGIN: 'https://a.example', OLD: 'examples/ci/old.txt' };
  const { stderr, status } = step('action.yml', { ...values, ACCEPTED: join(folder, 'bare.txt') });
  assert.match(stderr, /bare\.txt:1: no reason stands in this: "img-src"/);
  assert.equal(status, 2);
});

test('a folder of pairs', () => {
  const pair = join(folder, 'pairs/shop/home');
  mkdirSync(pair, { recursive: true });
  for (const [name, from] of [['old', 'old'], ['new', 'weaker']]) {
    writeFileSync(join(pair, `${name}.txt`), contentOf(`examples/ci/${from}.txt`));
  }
  const inputs = { ORIGIN: 'https://a.example', FOLDER: join(folder, 'pairs') };
  const { stdout, status } = step('action.yml', inputs);
  assert.match(stdout, /^::error file=.*shop\/home\/new\.txt,line=1,title=img-src::img-src is weaker/);
  assert.equal(status, 1);
});
