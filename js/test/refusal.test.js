/** Each refusal: its code, where it stands, what stood there and what to write. */
import assert from 'node:assert/strict';
import test from 'node:test';
import { DESTINATIONS, KINDS, Refusal, check, embed, judge, order, tidy } from '../node.js';
import { engine } from './shared.js';

const origin = 'https://a.example';
const headers = "Content-Security-Policy: img-src 'self'";

const refused = call => {
  try {
    call();
  } catch (error) {
    assert.ok(error instanceof Refusal && error instanceof Error);
    return { ...error, message: error.message };
  }
  return assert.fail('there is an answer');
};
const judged = given => refused(() => judge(engine, { origin, headers, requests: [], ...given }));

/** Whether the refusal has these members. */
const has = (refusal, expected) => assert.deepEqual({ ...refusal, ...expected }, refusal);

test('an origin with a path', () => {
  const refusal = judged({ origin: 'https://a.example/path' });
  has(refusal, { status: 3, code: 'bad-origin', got: 'https://a.example/path', text: 'bad origin\n' });
  assert.match(refusal.hint, /https:\/\/a\.example\.$/);
});

test('a line that is no header', () => {
  const refusal = judged({ headers: "HTTP/2 200\ndefault-src 'self'\r\n" });
  has(refusal, { status: 4, code: 'bad-policy', file: 'headers', line: 2, got: "default-src 'self'" });
  assert.match(refusal.hint, /^Write Content-Security-Policy: before the value/);
  const given = { origin, embedder: origin, required: headers, response: '<html>' };
  has(refused(() => embed(engine, given)), { code: 'bad-policy', file: 'response', line: 1, got: '<html>' });
  const ordered = refused(() => order(engine, { origin, lists: [headers, '?'] }));
  has(ordered, { file: 'list 2', line: 1, got: '?' });
});

for (const [line, hint] of [
  ['<meta http-equiv="Content-Security-Policy" content="default-src x">', /Meta-Content-Security-Policy/],
  ['add_header Content-Security-Policy "default-src x";', /the line that the server sends/],
  ['HTTP/1.1 200 OK', /one block/], ['{"a": 1}', /header lines/], ['\uFEFFServer: x', /byte order mark/],
  ['what is this', /a name, a colon and a value/],
]) {
  test(`headers that hold ${line.trim().slice(0, 20)}`, () => {
    assert.match(judged({ headers: `Server: x\n${line}\n` }).hint, hint);
  });
}

test('a member of a request', () => {
  const requests = '[\n{"kind": "eval"},\n{"kind": "fetch",\n"destination": "beacon", "url": "data:,"}\n]';
  const refusal = judged({ requests });
  has(refusal, { status: 6, code: 'bad-requests', file: 'requests', line: 3, request: 2 });
  has(refusal, { member: 'destination', got: 'beacon' });
  assert.equal(refusal.allowed, DESTINATIONS);
  assert.match(refusal.hint, /^Write ""\. All words: "", "audio", /);
  assert.match(refusal.message, /^requests line 3: request 2: destination is "beacon"\nWrite ""\./);
  has(judged({ requests: [{ kind: 'fitch' }] }), { member: 'kind', got: 'fitch', allowed: KINDS });
  has(judged({ requests: [{ kind: 'base' }] }), { member: 'url', got: undefined, line: 1 });
  has(judged({ requests: [7] }), { member: 'object', got: 7 });
});

const FETCH = { kind: 'fetch', destination: 'script' }, SCRIPT = { ...FETCH, url: 'https://a.example/' };
const INLINE = { kind: 'inline', type: 'script' };
for (const [member, request] of Object.entries({
  url: { ...FETCH, url: '/x.js' }, urls: { ...FETCH, urls: [] }, response: { ...SCRIPT, response: 'x' },
  redirects: { ...SCRIPT, redirects: -1 }, nonce: { ...SCRIPT, nonce: 1 },
  integrity: { ...SCRIPT, integrity: [] }, 'parser-inserted': { ...SCRIPT, 'parser-inserted': 'true' },
  type: { ...INLINE, type: 'code', source: '' },
  source: INLINE, digests: { ...INLINE, digests: {} }, element: { ...INLINE, source: '', element: {} },
  ancestors: { kind: 'ancestors' }, page: { kind: 'ancestors', ancestors: [], page: 'x' },
  name: { kind: 'capability', name: 'cookies' },
})) {
  test(`the member ${member}`, () => {
    const refusal = judged({ requests: [request] });
    has(refusal, { code: 'bad-requests', request: 1, member, got: request[member] });
    assert.ok(refusal.hint.length > 10);
  });
}

test('requests that are no array', () => {
  has(judged({ requests: '' }), { code: 'bad-requests', problem: 'empty' });
  has(judged({ requests: '{"kind": "eval"}' }), { code: 'bad-requests', problem: 'JSON, but no array' });
  has(judged({ requests: Uint8Array.of(0x5b, 0xff, 0x5d) }), { code: 'bad-requests' });
});

for (const [place, text] of Object.entries({
  '1': '[{kind: "eval"}]', '2': '[\n{"kind": "eval"},]', '3': '[{},\n{},\n\t{"kind": "eval',
  '4': '["a",\n\n\n"b" "c"]',
})) {
  test(`requests that stop being JSON on line ${place}`, () => {
    has(judged({ requests: text }), { code: 'bad-requests', line: Number(place) });
  });
}

test('a limit', () => {
  const requests = Array.from({ length: 10_001 }, () => ({ kind: 'eval' }));
  const refusal = judged({ requests });
  has(refusal, { status: 5, code: 'too-large', file: 'requests' });
  assert.match(refusal.hint, /10,000/);
  const policies = Array.from({ length: 65 }, () => headers).join('\n');
  has(refused(() => tidy(engine, { origin, headers: policies })), { code: 'too-large', file: 'headers' });
});

test('a proof and a required policy', () => {
  const given = { origin, new: headers, old: headers, proof: 'csp-proof 2\ntree x\n' };
  const checked = refused(() => check(engine, given));
  has(checked, { status: 7, code: 'bad-proof', file: 'proof', line: 2, got: 'tree x' });
  const two = { origin, embedder: origin, required: `${headers}, ${headers}`, response: '' };
  has(refused(() => embed(engine, two)), { status: 13, code: 'bad-required-policy', file: 'required' });
});

test('words that are none', () => {
  has(refused(() => order(engine, { origin, lists: [headers] })), { status: 2, code: 'usage' });
});
