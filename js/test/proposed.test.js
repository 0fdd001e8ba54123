/** The word `propose`: what a person sees of a proposal, what a program reads, and the exit codes. */
import assert from 'node:assert/strict';
import { mkdirSync, writeFileSync } from 'node:fs';
import { join } from 'node:path';
import { pathToFileURL } from 'node:url';
import test from 'node:test';
import { TOP, guidecerise, temporaryFolder } from './shared.js';

const folder = temporaryFolder(), site = join(folder, 'site');
mkdirSync(site);
const file = (name, content) => {
  writeFileSync(join(folder, name), content);
  return join(folder, name);
};
file('site/index.html', '<!DOCTYPE html>\n<script src=/a.js></script>\n<button onclick=go()>x</button>\n');
file('site/index.html.headers', "Content-Security-Policy: img-src 'self'; report-uri /r\n");
const calm = file('calm.html', '<!DOCTYPE html>\n<img src=a.png>\n');
const policy = "default-src 'self'";
const reports = file('reports.json', ['img-src https://a.example/x', 'img-src https://a.example/y',
  'script-src-elem inline'].map(it => it.split(' ')).map(([directive, blocked]) => JSON.stringify({
  'csp-report': {
    'document-uri': 'https://s.example/', 'effective-directive': directive, 'blocked-uri': blocked,
    'original-policy': policy,
  },
})).join('\n'));
const headers = file('headers.txt', `Content-Security-Policy: ${policy}\n`);

// Debian's parse5 is found as the tests find it.
const env = { NODE_OPTIONS: `--import ${pathToFileURL(join(TOP, 'js/test/debian.js'))}` };
const propose = (...words) => guidecerise(['propose', ...words], { env });

test('a strict proposal for a person', () => {
  const { stdout, stderr, status } = propose(site, '--url', 'https://s.example/', '--form', 'strict');
  const [strict, rest] = ["script-src 'nonce-RANDOM' 'strict-dynamic'",
    "object-src 'none'; base-uri 'none'; form-action 'none'; frame-ancestors 'none'; report-uri /r"];
  assert.equal(stdout.split('\nWith this policy')[0], `\
Content-Security-Policy: default-src 'none'; ${strict} https: 'unsafe-inline'; ${rest}

Shorter, and the same in browsers of today. Old ones that know no nonces or no \
'strict-dynamic' need what it lacks:
Content-Security-Policy: default-src 'none'; ${strict}; ${rest}

These elements have to get the nonce:
    index.html:2:9  src of <script>

Still blocked. For each of them:
  move it to a script, with addEventListener:
    index.html:3:9  onclick of <button>

--unsafe-hashes allows handlers, javascript: URLs and style attributes by their hashes in place of that.
`);
  assert.match(stdout, /^ {2}A script that runs could add a script from .*'strict-dynamic' allows it\.$/m);
  assert.match(stdout, /^1 element will need the nonce\. 1 of 3 requests is then still blocked\.$/m);
  assert.match(stdout, /^Kept from the present policy: report-uri \/r\.$/m);
  assert.match(stdout, /an attacker may have changed them, what he put there is allowed too\.$/m);
  assert.match(stdout, /^- other pages than those that were given$/m);
  assert.deepEqual([stderr, status], ['', 1]);
});

test('an addition for a person', () => {
  const { stdout, status } = propose(reports, '--form', 'addition', '--headers', headers);
  assert.ok(stdout.startsWith(`\
Content-Security-Policy: default-src 'self'; img-src 'self' https://a.example

ends  directive  sources
2     img-src    https://a.example  added

Still blocked. For each of them:
  reports have no text of it: give the HTML of the page:
    1 report  script-src-elem inline https://s.example/
`), stdout);
  assert.match(stdout, /^1 new source would end 2 of 3 violations\. 1 of 3 reports is still blocked\.$/m);
  assert.match(stdout, /^A report may tell of an attack that the policy stopped: look at each source first/m);
  assert.equal(status, 1);
});

test('a proposal for programs, and the codes', () => {
  const { stdout, status } = propose(calm, '--url', 'https://s.example/calm', '--json');
  const { answer, sentence } = JSON.parse(stdout);
  assert.equal(answer.headers, "Content-Security-Policy: default-src 'none'; img-src 'self'; "
    + "object-src 'none'; base-uri 'none'; form-action 'none'; frame-ancestors 'none'\n");
  assert.deepEqual([answer.blocked, sentence, status], [[], 'None of 1 request is still blocked.', 0]);
  const recorded = propose('examples/har/page.har', '--form', 'addition');
  assert.match(recorded.stdout, /^This was recorded while a policy was enforced: /);
  assert.equal(recorded.status, 15);
  for (const [words, said, code] of [
    [[calm, '--form', 'hard'], '--form is "hard"\n  Write one of hosts, strict, addition.\n', 2],
    [[join(folder, 'none')], 'there is no such file\n', 8],
    [[calm], 'pages of HTML need the address', 6],
    [[reports, '--form', 'addition'], 'there is no policy to add to\n', 6],
  ]) {
    const refused = propose(...words);
    assert.ok(refused.stderr.includes(said), refused.stderr);
    assert.equal(refused.status, code);
  }
});
