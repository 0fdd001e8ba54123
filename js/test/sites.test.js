/** The command over what people have: pages, recordings, headers in any form, reports. */
import assert from 'node:assert/strict';
import { mkdirSync, writeFileSync } from 'node:fs';
import { join } from 'node:path';
import test from 'node:test';
import { guidecerise, temporaryFolder } from './shared.js';

const folder = temporaryFolder();
const file = (name, content) => {
  writeFileSync(join(folder, name), content);
  return join(folder, name);
};
const node = ['--import', new URL('./debian.js', import.meta.url).href];
const run = (words, options) => guidecerise(words, { node, ...options });
const html = '<!DOCTYPE html>\n<p onclick="go()">x</p>\n<img src="/a.png"><script nonce="n">a</script>';
const page = file('page.html', html);
const nginx = file('nginx.conf', "server {\n  listen 80;\n"
  + "  add_header Content-Security-Policy \"img-src 'self'; script-src 'nonce-n'; defalt-src x\" always;\n}");

/** @param {string | undefined} policy @param {string[]} hosts of images */
const har = (policy, hosts) => JSON.stringify({ log: { entries: [
  ['https://a.example/', 'document', 'text/html', html], ...hosts.map(it => [`https://${it}/i.png`, 'image']),
].map(([url, to, mimeType = '', text], n) => ({
  startedDateTime: `2026-01-01T00:00:0${n}Z`,
  request: { url, headers: [{ name: 'Sec-Fetch-Dest', value: to }] },
  response: { status: 200, content: { mimeType, text },
    headers: policy === undefined || n > 0 ? [] : [{ name: 'Content-Security-Policy', value: policy }] },
})) } });

test('a page of HTML under a line of a configuration', () => {
  const { stdout, stderr, status } = run(['judge', page, '--url', 'https://a.example/', '--headers', nginx]);
  assert.equal(stderr, '');
  assert.equal(status, 1);
  assert.ok(stdout.startsWith(`${nginx}:3: read as an nginx directive
${nginx}: defalt-src is no directive, and decides nothing: write default-src

answer   request                 by
blocked  line 2: onclick of <p>  script-src

1 of 4 requests is blocked.
Looked at: 1 page, of https://a.example.
Known in part, or not looked at:
- what scripts do as they run`), stdout);
});

test('headers in another form are compared as header lines are', () => {
  const [value, json] = [file('value.txt', "img-src 'self'; script-src 'nonce-n'"),
    file('pairs.json', '[{"key": "Content-Security-Policy", "value": "img-src *; script-src \'nonce-n\'"}]')];
  const { stdout, status } = run(['differ', 'https://a.example', '--new', json, '--old', value]);
  assert.match(stdout, /^.*pairs\.json:1: read as a pair of a name and a value$/m);
  assert.match(stdout, /^.*value\.txt:1: read as a bare value of an enforced policy$/m);
  assert.match(stdout, /^img-src +image /m);
  assert.equal(status, 1);
});

test('a recording under an enforced policy is no good news', () => {
  const policy = "img-src 'self'; script-src 'nonce-n'; script-src-attr 'unsafe-inline'";
  const { stdout, status } = run(['judge', file('enforced.har', har(policy, ['a.example']))]);
  assert.match(stdout, /^This was recorded while a policy was enforced: /);
  assert.match(stdout, /^None of 5 requests is blocked\.$/m);
  assert.match(stdout, /^To record a page without its policy in Chromium:\n1\. /m);
  assert.equal(status, 15);
  const recording = file('free.har', har(undefined, ['b.example']));
  const free = run(['judge', recording, '--headers', file('p.txt', policy)]);
  assert.match(free.stdout, /^blocked {2}image https:\/\/b\.example\/i\.png {2}img-src$/m);
  assert.equal(free.status, 1);
  const none = run(['judge', file('none.har', har(undefined, []))]);
  assert.match(none.stdout, /no enforced policy decides anything there/);
});

test('many pages at once: each by itself, and in sum', () => {
  mkdirSync(join(folder, 'site/b'), { recursive: true });
  file('site/index.html', html);
  file('site/b/index.html', '<img src="https://b.example/x.png">');
  file('site/app.js', 'x()');
  const words = [join(folder, 'site'), '--url', 'https://a.example/x/', '--headers', nginx];
  const { stdout } = run(['judge', ...words]);
  assert.match(stdout, /^1 {8}0 {9}1 {3}https:\/\/a\.example\/x\/b\/ \(b\/index\.html\)$/m);
  assert.match(stdout, /^1 {8}0 {9}4 {3}https:\/\/a\.example\/x\/ \(index\.html\)$/m);
  assert.match(stdout, /^2 of 5 requests on 2 pages, frames and workers are blocked\.$/m);
  assert.match(stdout, /^- .*site: files of other kinds \(\.js\): not looked at$/m);
});

test('what the browser says stands beside the rows, and where it differs is a row', () => {
  const events = file('events.json', JSON.stringify([
    { documentURI: 'https://a.example/', blockedURI: 'inline', effectiveDirective: 'script-src-attr',
      lineNumber: 2, disposition: 'enforce' },
    { documentURI: 'https://a.example/', blockedURI: 'https://c.example/x', effectiveDirective: 'connect-src',
      disposition: 'enforce' },
  ]));
  const { stdout, status } = run(['judge', page, '--url', 'https://a.example/', '--headers', nginx, events]);
  assert.match(stdout, /^not read {2}blocked {2}connect-src {2}https:\/\/c\.example\/x$/m);
  assert.match(stdout, /^The browser tells 2 violations; 1 of them stand above too\.$/m);
  assert.equal(status, 1);
});

test('requests as the engine reads them', () => {
  const { stdout } = run(['requests', page, '--url', 'https://a.example/']);
  const image = { kind: 'fetch', destination: 'image', url: 'https://a.example/a.png' };
  assert.deepEqual(JSON.parse(stdout)[1], { ...image, note: 'line 3: src of <img>' });
  const ndjson = run(['requests', '--ndjson', page, '--url', 'https://a.example/']).stdout;
  assert.deepEqual(ndjson.trimEnd().split('\n').map(it => JSON.parse(it)), JSON.parse(stdout));
});

const report = (blocked, line) => JSON.stringify({ 'csp-report': { 'document-uri': 'https://a.example/',
  'effective-directive': 'img-src', 'blocked-uri': blocked, 'line-number': line, disposition: 'enforce',
  'original-policy': "img-src 'self'" } });

test('reports are counted, and what was none is named and has its own code', () => {
  const one = report('https://b.example/1', 3), good = [one, one, report('https://c.example/2')];
  const told = guidecerise(['reports', '-'], { input: good.join('\n') });
  assert.match(told.stdout, /^2 {6}img-src {4}https:\/\/b\.example\/1 {2}https:\/\/a\.example\/:3$/m);
  assert.match(told.stdout, /^3 violations\.$/m);
  assert.equal(told.status, 0);
  const headers = file('next.txt', 'Content-Security-Policy: img-src https://b.example');
  const next = guidecerise(['reports', '-', '--headers', headers], { input: good.join('\n') });
  assert.match(next.stdout, /The headers would still report 1 of them\./);
  assert.equal(next.status, 1);
  const cut = guidecerise(['reports', '-'], { input: `${good[0]}\n{"csp-rep\n` });
  assert.match(cut.stdout, /left out: 1, as line 2 \("\{"csp-rep"\)/);
  assert.equal(cut.status, 16);
  const none = guidecerise(['reports', '-'], { input: '{"a": 1}\n' });
  assert.match(none.stdout, /^No report stands in this: it says nothing of what is blocked\.$/m);
  assert.equal(none.status, 16);
});
