/** Pairs of headers, with what was written by hand of each: verdict, directives, and what no proof covers. */
import assert from 'node:assert/strict';
import { mkdirSync, readFileSync, writeFileSync } from 'node:fs';
import { join } from 'node:path';
import test from 'node:test';
import { check, weaker } from '../node.js';
import { contentOf, engine, guidecerise, temporaryFolder } from './shared.js';

const ORIGIN = 'https://a.example';
const PAIRS = JSON.parse(contentOf('js/test/weaker.json'));
const headersOf = lines =>
  lines.map(it => /^[A-Z]/.test(it) ? `${it}\n` : `Content-Security-Policy: ${it}\n`).join('');

for (const { name, old, new: newer, accepted, ...expected } of PAIRS) {
  test(name, () => {
    const given = { origin: ORIGIN, new: headersOf(newer), old: headersOf(old), accepted };
    const answer = weaker(engine, given), changed = answer.directives.filter(it => it.change !== 'same');
    assert.equal(answer.verdict, expected.verdict);
    const changes = Object.fromEntries(changed.map(it => [it.directive, it.change]));
    assert.deepEqual(changes, expected.directives ?? {});
    const uncovered = answer.uncovered.map(({ directive, change, loosens }) =>
      `${directive} ${change}${loosens ? ', looser' : ''}`);
    assert.deepEqual(uncovered.sort(), (expected.uncovered ?? []).sort());
    const renamed = Object.fromEntries(answer.nonces.renamed.map(it => [it.from, it.to]));
    assert.deepEqual(renamed, expected.renamed ?? {});
    assert.deepEqual(answer.accepted.map(it => it.needed), expected.needed ?? []);
    if (answer.proved !== undefined) {
      const { accepted: isRight } = check(engine, { origin: ORIGIN, ...answer.proved });
      assert.deepEqual([isRight, answer.proved.engine, answer.proved.second], [true, true, true]);
    }
  });
}

test('what is accepted lets through nothing under other directives', () => {
  const [newer, old] = [headersOf(["default-src 'self'"]), headersOf(["default-src 'none'"])];
  const lines = ['script-src', 'worker-src', 'frame-src', 'img-src', 'style-src'].map(directive =>
    ({ directive, source: "'self'", reason: 'a test' }));
  const { accepted } = weaker(engine, { origin: ORIGIN, new: newer, old, accepted: lines });
  const allowed = accepted.map(it => it.allows.map(({ directive }) => directive).join());
  assert.deepEqual(allowed, ['script-src-elem', 'worker-src', 'frame-src', 'img-src', 'style-src-elem']);
});

test('a line that accepts what nothing can mean is refused', () => {
  for (const [directive, source] of [['default-src', 'data:'], ['trusted-types', 'a']]) {
    const given = { origin: ORIGIN, new: '', old: '', accepted: [{ directive, source, reason: 'none' }] };
    assert.throws(() => weaker(engine, given), { code: 'usage' });
  }
});

const folder = temporaryFolder();
const put = (path, text) => {
  const file = join(folder, path);
  mkdirSync(join(file, '..'), { recursive: true });
  writeFileSync(file, text);
  return file;
};

test('a folder of pairs, each with its origin and what it accepts', () => {
  const STRICT = "Content-Security-Policy: img-src 'self'\n", LOOSE = `${STRICT.trimEnd()} data:\n`;
  put('all/shop/cart/old.txt', STRICT), put('all/shop/cart/new.txt', STRICT);
  put('all/shop/home/old.txt', STRICT), put('all/shop/home/new.txt', LOOSE);
  put('all/shop/home/accepted.txt', '# decided\nimg-src data: icons\n');
  put('all/blog/post/new.txt', "Content-Security-Policy: img-src https://blog.example\n");
  put('all/blog/post/old.txt', STRICT), put('all/blog/origin.txt', 'https://blog.example\n');
  const words = ['weaker', ORIGIN, '--folder', join(folder, 'all')];
  const good = guidecerise([...words, '--save-proof', 'kept.proof', '--json']);
  assert.equal(good.status, 0, good.stdout + good.stderr);
  assert.deepEqual(JSON.parse(good.stdout).answer.map(it => [it.name, it.origin, it.answer.verdict]), [
    ['blog/post', 'https://blog.example', 'not weaker'], ['shop/cart', ORIGIN, 'not weaker'],
    ['shop/home', ORIGIN, 'not weaker'],
  ]);
  const home = join(folder, 'all/shop/home/kept.proof');
  const checked = ['check', ORIGIN, `${home}.new.txt`, `${home}.old.txt`, home];
  assert.equal(guidecerise(checked).status, 0);
  put('all/shop/cart/new.txt', LOOSE), put('all/blog/post/new.txt', 'no header at all\n');
  const bad = guidecerise(words);
  assert.match(bad.stdout, /^blog\/post +no answer +/m);
  assert.match(bad.stdout, /^shop\/cart +weaker +img-src$/m);
  assert.match(bad.stdout, /^3 pairs: 1 not weaker, 2 weaker or without an answer\.$/m);
  assert.equal(bad.status, 1);
  const unnamed = guidecerise(['weaker', '--folder', join(folder, 'all')]);
  assert.match(unnamed.stderr, /cart: no origin is given for it\n.*all\/origin\.txt/);
  assert.equal(unnamed.status, 2);
  put('half/new.txt', STRICT);
  const half = guidecerise(['weaker', ORIGIN, '--folder', join(folder, 'half')]);
  assert.match(half.stderr, /new\.txt stands there without old\.txt/);
  assert.equal(half.status, 8);
});

test('what no proof covers stands first, and ends with 1', () => {
  const SELF = "Content-Security-Policy: script-src 'self'";
  const old = put('tt/old.txt', `${SELF}; require-trusted-types-for 'script'\n`);
  const words = ['weaker', ORIGIN, put('tt/new.txt', `${SELF}\n`), old];
  const { stdout, status } = guidecerise(words);
  assert.match(stdout, /^Changed, and covered by no proof:\n.*\nrequire-trusted-types-for  removed /);
  assert.match(stdout, /^Weaker outside the proof: /m);
  assert.equal(status, 1);
  const sarif = JSON.parse(guidecerise([...words, '--sarif']).stdout).runs[0].results;
  assert.deepEqual(sarif.map(it => [it.ruleId, it.level]), [['require-trusted-types-for', 'error']]);
  const proof = join(folder, 'tt.proof');
  guidecerise([...words, '--save-proof', proof]);
  assert.match(readFileSync(proof, 'utf8'), /^csp-proof /);
});
