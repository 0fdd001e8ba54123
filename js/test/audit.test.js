/** What an attacker could do under four policies, by hand. */
import assert from 'node:assert/strict';
import { writeFileSync } from 'node:fs';
import { join } from 'node:path';
import test from 'node:test';
import { audit, judge } from '../node.js';
import { engine, guidecerise, temporaryFolder } from './shared.js';

const ORIGIN = 'https://a.example';
const all = (group, schemes = ['https', 'http', 'data', 'blob']) => schemes.map(it => `${group} ${it}:`);
const HOSTS = ['https', 'http'];
const SCRIPTS = ['inline script', 'event handler', 'javascript: URL'];
const STYLES = ['inline style', 'style attribute', ...all('style')];
const CONNECTIONS = all('connection', ['https', 'http', 'data', 'blob', 'wss', 'ws']);
const LOADS = [...all('frame'), ...all('object'), ...all('image'), ...CONNECTIONS];
const PLACES = [...all('form', HOSTS), ...all('base', HOSTS), ...all('framing', HOSTS), 'framing null'];
const RUNNING = ['eval', 'WebAssembly'], WORKERS = ['worker own', 'worker data:', 'worker blob:'];

const CASES = [
  {
    name: 'a loose policy', headers: "Content-Security-Policy: script-src * 'unsafe-inline' 'unsafe-eval'",
    yes: [...SCRIPTS, ...all('script', HOSTS), 'own script', ...STYLES, ...LOADS, ...PLACES, ...RUNNING,
      ...all('added script', HOSTS), 'worker own'],
  }, {
    name: 'a strict policy',
    headers: "Content-Security-Policy: default-src 'none'; script-src 'nonce-Hq3vX8kTz0Rm2LwY5bNc7A'"
      + " 'strict-dynamic'; style-src 'self'; base-uri 'none'; form-action 'self'; frame-ancestors 'none'",
    yes: [...all('added script'), ...WORKERS],
  }, {
    // the hash is that of alert(1), by openssl
    name: 'a policy of hashes',
    headers: "Content-Security-Policy: default-src 'self'; script-src 'unsafe-hashes'"
      + " 'sha256-bhHHL3z2vDgxUt0W3dWQOrprscmda2Y5pLsLg4GF+pI='",
    yes: PLACES,
  }, {
    name: 'a policy that only reports', headers: "Content-Security-Policy-Report-Only: default-src 'none'",
    yes: PLACES, blocksNothing: true,
    reported: [...SCRIPTS, ...all('script'), 'own script', ...STYLES, ...LOADS, ...RUNNING,
      ...all('added script'), ...WORKERS],
  }, {
    name: 'a host that is named, in a sandbox without scripts',
    headers: "Content-Security-Policy: default-src 'none'; script-src https://cdn.example/js/"
      + " 'unsafe-inline'\nContent-Security-Policy: sandbox allow-forms",
    yes: PLACES,
  }, {
    name: 'a host that is named',
    headers: "Content-Security-Policy: default-src 'none'; script-src https://cdn.example/js/;"
      + " base-uri 'none'; form-action 'none'; frame-ancestors https://*:8443",
    yes: ['script https://cdn.example/js/x.js', 'framing https:'],
  },
];

for (const { name, headers, yes, reported = [], blocksNothing = false } of CASES) {
  test(name, () => {
    const answer = audit(engine, { origin: ORIGIN, headers }), { rows } = answer;
    const ids = can => rows.filter(it => it.can === can).map(it => it.id).sort();
    assert.deepEqual(ids('yes'), [...yes].sort());
    assert.deepEqual(ids('reported'), [...reported].sort());
    assert.equal(answer.blocksNothing, blocksNothing);
    for (const { request, stops, can } of rows) {
      assert.equal(stops.length > 0, can !== 'no');
      for (const stop of stops) {
        const [{ blocked }] = judge(engine, { origin: ORIGIN, headers: stop.headers, requests: [request] });
        assert.ok(blocked, stop.text);
      }
    }
  });
}

test('nothing names the attacker\'s host or code', () => {
  const names = ['*.example', 'https://attacker.test', 'x.attacker.invalid'];
  const headers = `Content-Security-Policy: default-src ${names.join(' ')}; script-src 'unsafe-hashes'`
    + " 'sha256-bhHHL3z2vDgxUt0W3dWQOrprscmda2Y5pLsLg4GF+pI='";
  const { rows } = audit(engine, { origin: ORIGIN, headers });
  assert.equal(rows.find(it => it.id === 'image https:').can, 'no');
  assert.equal(rows.find(it => it.id === 'inline script').request.source, 'alert(2)');
});

test('what would stop it is the least that does', () => {
  const headers = "Content-Security-Policy: script-src 'self' https: http: 'unsafe-inline'; img-src *";
  const { rows } = audit(engine, { origin: ORIGIN, headers });
  const stops = id => rows.find(it => it.id === id).stops.map(it => it.text);
  assert.deepEqual(stops('inline script'), ["take 'unsafe-inline' out of script-src",
    "add 'nonce-RANDOM', new in each response, to script-src"]);
  assert.deepEqual(stops('script http:'), ['take http: out of script-src']);
  assert.deepEqual(stops('script https:'), ['take https: and http: out of script-src']);
  assert.deepEqual(stops('base https:'), ["add base-uri 'self'"]);
});

test('what is known and not proved', () => {
  const headers = "Content-Security-Policy: script-src 'nonce-abc' https://cdn.example/js/ https://b.example";
  const { known } = audit(engine, { origin: ORIGIN, headers });
  assert.deepEqual(known.map(it => it.token ?? it.directive), ["'nonce-abc'", "'nonce-abc'",
    'https://cdn.example/js/', 'https://b.example', 'object-src', 'base-uri']);
});

test('the command never ends with 0 where markup runs code, or nothing is blocked', () => {
  const folder = temporaryFolder();
  const codes = CASES.map(({ headers }, n) => {
    writeFileSync(join(folder, `${n}.txt`), headers);
    return guidecerise(['audit', ORIGIN, join(folder, `${n}.txt`)]).status;
  });
  assert.deepEqual(codes, [1, 0, 0, 15, 0, 0]);
});
