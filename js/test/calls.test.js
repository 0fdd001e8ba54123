/** The typed calls: what they answer is what the program prints, all of it, in its place. */
import assert from 'node:assert/strict';
import { spawnSync } from 'node:child_process';
import { join } from 'node:path';
import test from 'node:test';
import { reasonsOf } from '../answers.js';
import * as calls from '../node.js';
import { PRINTED, TOP, contentOf, engine, exampleCases, givenOf, has } from './shared.js';

const USAGE = 2;
const READ_FAULT = 8;

// The words of a call, with what the files hold in place of their names
const resolved = (words, files) => words.map(it => files.find(([name]) => name === it)?.[1] ?? it);

// Whether the typed call asks these words and files, and answers all that the program says. It answers how
// many cases it compared, one or none.
const same = (words, files) => {
  const output = engine.call(words, files), { code, text } = output;
  if (!(words[0] in PRINTED) || code === USAGE || code === READ_FAULT) return 0;
  const asked = {
    call: (given, held) => {
      assert.deepEqual(resolved(given, held), resolved(words, files));
      return output;
    },
  };
  const typed = () => calls[words[0]](asked, givenOf(words, files)), message = words.join(' ');
  const isThis = it => it instanceof calls.Refusal && it.status === code && it.text === text;
  if (code <= 1) assert.equal(PRINTED[words[0]](typed()), text, message);
  else assert.throws(typed, isThis, message);
  return 1;
};

test('each call over all examples', () => {
  const cases = exampleCases();
  assert.ok(cases.length > 200);
  for (const [words, files] of cases) assert.equal(same(words, files), 1);
});

test('read loses nothing over all examples', () => {
  const cases = exampleCases().filter(([[word]]) => word === 'tidy');
  assert.ok(cases.length > 20);
  for (const [[, origin, name], files] of cases) {
    const { code, text } = engine.call(['read', origin, name], files);
    if (code !== 0) continue;
    const { policies, dropped } = calls.read(engine, { headers: new Map(files).get(name) });
    const all = [...policies, ...dropped.map(({ policy, ...it }) => it)].map(it => JSON.stringify(it));
    assert.deepEqual(all.sort(), text.split('\n').slice(0, -1).sort(), name);
  }
});

const RANDOM = `
import json, random, sys
sys.path.insert(0, "bench")
from paged.cases import packed, random_cases
print(json.dumps([packed(*it) for it in random_cases(2000, int(sys.argv[1]))]))
`;

test('each call over 2,000 random cases', { skip: !has('python3') && 'python3 is missing' }, () => {
  const env = { ...process.env, CSP: 'none', PYTHONDONTWRITEBYTECODE: '1' };
  const options = { cwd: TOP, encoding: 'utf8', maxBuffer: 2 ** 28, env };
  const made = spawnSync('python3', ['-c', RANDOM, '7'], options);
  assert.equal(made.status, 0, made.stderr);
  let count = 0;
  for (const [words, files] of JSON.parse(made.stdout).filter(([it]) => !it.includes('not-there'))) {
    count += same(words, files.map(([name, text]) => [name, Buffer.from(text, 'base64')]));
  }
  assert.ok(count > 1000, `${count}`);
});

const origin = 'https://a.example';
const headers = `Content-Security-Policy: img-src 'self'; script-src 'nonce-r4nd0m'
Content-Security-Policy-Report-Only: img-src https:
`;

test('judge, report and why tell what the policies do', () => {
  const requests = [
    { kind: 'fetch', destination: 'image', url: 'data:,x' },
    { kind: 'inline', type: 'script', source: 'x()', nonce: 'r4nd0m' },
  ];
  const items = [
    { policy: 0, disposition: 'enforce', effective: 'img-src', governing: 'img-src' },
    { policy: 1, disposition: 'report', effective: 'img-src', governing: 'img-src' },
  ];
  assert.deepEqual(calls.judge(engine, { origin, headers, requests }),
    [{ number: 1, blocked: true, items }, { number: 2, blocked: false, items: [] }]);
  const { reports, counts } = calls.report(engine, { origin, headers, requests });
  assert.deepEqual(counts, { 'img-src': 2 });
  const told = reports.map(it => [it['blocked-uri'], it.disposition]);
  assert.deepEqual(told, [['data', 'enforce'], ['data', 'report']]);
  const [image, script] = calls.why(engine, { origin, headers, requests });
  assert.equal(image.checks[0].url, 'data:');
  assert.deepEqual(script.checks[0].policies[0],
    { policy: 0, directive: 'script-src', does: 'allows', by: 'nonce', token: "'nonce-r4nd0m'", near: [] });
});

test('why names a token that nearly allows', () => {
  const requests = [{ kind: 'fetch', destination: 'image', url: 'https://b.example:8443/' }];
  const given = { origin, headers: 'Content-Security-Policy: img-src https://b.example', requests };
  const [{ checks: [{ policies }] }] = calls.why(engine, given);
  const near = [{ token: 'https://b.example', butFor: 'port' }];
  assert.deepEqual(policies, [{ policy: 0, directive: 'img-src', does: 'blocks', near }]);
});

test('each check that why tells is read, with what each policy does with it', () => {
  const [{ checks }, frame] = reasonsOf(`1 blocked 1:report:img-src/img-src 0:enforce:img-src/img-src
  url https://a.example/
  0 img-src allows source https://a.example
  1 img-src would block
    add https://a.example to img-src
  url https://b.example:8443/
  0 img-src blocks
    https://b.example port
  1 - allows
2 blocked 0:report:frame-ancestors/frame-ancestors 1:enforce:frame-ancestors/frame-ancestors
  0 frame-ancestors would block
  1 frame-ancestors blocks
`);
  const img = { directive: 'img-src', near: [] }, frames = { directive: 'frame-ancestors', near: [] };
  assert.deepEqual(checks, [
    { url: 'https://a.example/', policies: [
      { ...img, policy: 0, does: 'allows', by: 'source', token: 'https://a.example' },
      { ...img, policy: 1, does: 'would block', add: 'https://a.example' }] },
    { url: 'https://b.example:8443/', policies: [
      { ...img, policy: 0, does: 'blocks', near: [{ token: 'https://b.example', butFor: 'port' }] },
      { policy: 1, directive: '-', does: 'allows', near: [] }] },
  ]);
  assert.deepEqual(frame.checks, [
    { url: null, policies: [
      { ...frames, policy: 0, does: 'would block' }, { ...frames, policy: 1, does: 'blocks' }] },
  ]);
});

test('compare, check, differ and blocksNothing', () => {
  const all = 'Content-Security-Policy: img-src https:';
  const one = 'Content-Security-Policy: img-src https://b.example';
  const stricter = calls.compare(engine, { origin, new: one, old: all });
  assert.ok(!stricter.weaker);
  const { proof } = stricter;
  assert.deepEqual(calls.check(engine, { origin, new: one, old: all, proof }), { accepted: true });
  assert.equal(calls.check(engine, { origin, new: all, old: one, proof }).accepted, false);
  assert.deepEqual(calls.differ(engine, { origin, new: one, old: all }), []);
  const [{ directive, url, items }] = calls.differ(engine, { origin, new: all, old: one });
  assert.deepEqual([directive, items[0].governing], ['img-src', 'img-src']);
  assert.match(url, /^https:/);
  assert.equal(calls.blocksNothing(engine, { origin, headers: one }), false);
  for (const it of ['', "Content-Security-Policies: img-src x", 'Content-Security-Policy: image-src x']) {
    assert.equal(calls.blocksNothing(engine, { origin, headers: it }), true, it);
  }
});

test('embed, tidy, learn and order', () => {
  const required = 'Content-Security-Policy: img-src https:';
  const embedder = 'https://e.example';
  const embedded = response => calls.embed(engine, { embedder, origin, required, response }).answer;
  assert.equal(embedded('Allow-CSP-From: *'), 'added');
  assert.equal(embedded("Content-Security-Policy: img-src 'none'"), 'served');
  assert.equal(embedded(''), 'refused');
  const long = 'Content-Security-Policy: img-src https: https://b.example';
  const tidied = calls.tidy(engine, { origin, headers: long });
  assert.equal(tidied.headers, 'Content-Security-Policy: img-src https:\n');
  assert.deepEqual(tidied.needed.map(it => [it.token, it.how]), [['https:', 'with']]);
  const requests = [{ kind: 'fetch', destination: 'image', url: 'https://[::1]/' }];
  const nothing = "Content-Security-Policy: default-src 'none'\n";
  const learnt = calls.learn(engine, { origin, requests });
  assert.deepEqual(learnt, { headers: nothing, notLearnt: [{ request: 1, hop: 1 }] });
  const relations = calls.order(engine, { origin, lists: [nothing, required] });
  assert.deepEqual(relations.map(it => [it.first, it.second, it.weaker]), [[1, 2, false], [2, 1, true]]);
});

test('what is no text, no bytes and no array is a mistake of the caller', () => {
  assert.throws(() => calls.judge(engine, { origin, headers }), /requests is undefined/);
  assert.throws(() => calls.tidy(engine, { headers }), /origin is undefined/);
  assert.throws(() => calls.judge(engine, { origin, headers: null, requests: [] }), /headers is null/);
});

test('bytes are taken as they are', () => {
  const requests = contentOf(join('examples', 'first', 'requests.json'));
  const bytes = new TextEncoder().encode(headers);
  assert.equal(calls.judge(engine, { origin, headers: bytes, requests }).length, 1);
});
