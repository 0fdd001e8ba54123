/** Proposals: policies written by hand for pages, recordings and reports, and what they still block. */
import assert from 'node:assert/strict';
import test from 'node:test';
import { compare, learn } from '../index.js';
import { propose } from '../propose.js';
import { readHtml } from '../readers/html.js';
import { Tally } from '../readers/reports.js';
import { readSite } from '../readers/site.js';
import { parseHtml as parse } from './readers/tree.js';
import { engine } from './shared.js';

const ORIGIN = 'https://shop.example';
const pageOf = (text, lines = []) => readHtml(text, { url: `${ORIGIN}/`, parse, lines });
const rowOf = ({ line, said, directive }) => `${line} ${said} ${directive}`;

// sha256 of go() is written by: printf %s 'go()' | openssl dgst -sha256 -binary | base64
const GO = "'sha256-5KYv+PUboo5h+0+YAtGRPbwv5d/QxzHslP4YGnUaxRw='";
const HTML = `<!DOCTYPE html>
<link rel=stylesheet href=/main.css>
<script src=https://cdn.example:443/lib.js></script>
<script>go()</script>
<img src=https://shop.example/a.png><img src=http://old.example:8080/b.png srcset="data:,x 2x">
<a href="#" onclick=go()>x</a>
<p style=color:red>
<form action=https://pay.example/charge><button>Pay</button></form>
<iframe src=/help.html></iframe>`;

test('by hosts: what a page loads, and its scripts by their hashes', async () => {
  const { headers, blocked, nonces, asked, after } = await propose(engine, { pages: [pageOf(HTML)] });
  assert.equal(headers, "Content-Security-Policy: default-src 'none'; "
    + `script-src ${GO} https://cdn.example; style-src 'self'; `
    + "img-src 'self' data: https://old.example:8080; "
    + "object-src 'none'; frame-src 'self'; base-uri 'none'; form-action https://pay.example; "
    + "frame-ancestors 'self'\n");
  assert.deepEqual(blocked.map(rowOf),
    ['6 onclick of <a> script-src-attr', '7 style of <p> style-src-attr']);
  assert.deepEqual([nonces, asked.requests - after.requests, after.requests], [[], 10, 2]);
  assert.deepEqual(blocked.map(it => it.advice),
    ['move it to a script, with addEventListener', 'move it to a class in a style sheet']);
  assert.equal(blocked[0].hash, GO);
});

test('it allows all loads that learn allows', async () => {
  const page = pageOf(HTML), requests = page.pieces.map(it => it.request).filter(it => it.kind === 'fetch');
  const { headers } = await propose(engine, { pages: [page] });
  const learnt = learn(engine, { origin: ORIGIN, requests }).headers;
  const framed = "; base-uri 'none'; form-action 'none'; frame-ancestors 'none'";
  const given = { origin: ORIGIN, new: learnt.trimEnd() + framed, old: headers };
  assert.equal(compare(engine, given).weaker, false);
});

test('strict: scripts by nonces, and the places that lack one', async () => {
  const page = pageOf(`${HTML}<script nonce=old src=/own.js></script><script>\neval('1')</script>`);
  const strict = "script-src 'nonce-RANDOM' 'strict-dynamic'";
  const { headers, shorter, nonces, blocked } = await propose(engine, { form: 'strict', pages: [page] });
  assert.ok(headers.includes(`; ${strict} https: 'unsafe-inline'; style-src 'self'; `), headers);
  assert.equal(shorter, headers.replace(" https: 'unsafe-inline'", ''));
  assert.deepEqual(nonces.map(it => `${it.line}:${it.column} ${it.said}`),
    ['3:9 src of <script>', '4:1 <script>', '9:72 <script>']);
  assert.deepEqual(blocked.map(rowOf), [
    '6 onclick of <a> script-src-attr', '7 style of <p> style-src-attr', '10 eval in a script script-src',
  ]);
});

test('strict by hashes: what is not inline gets the nonce', async () => {
  const given = { form: 'strict', inline: 'hashes', pages: [pageOf(HTML)] };
  const { headers, nonces } = await propose(engine, given);
  assert.ok(headers.includes(`script-src 'nonce-RANDOM' 'strict-dynamic' ${GO} https: 'unsafe-inline'`));
  assert.deepEqual(nonces.map(it => it.line), [3]);
});

test("handlers and style attributes by 'unsafe-hashes'", async () => {
  const { headers, blocked } = await propose(engine, { unsafeHashes: true, pages: [pageOf(HTML)] });
  // printf %s color:red | openssl dgst -sha256 -binary | base64
  const red = "'sha256-8f935d27GvUutRyY9yWScUMiFUk4WTdZURISiYfPOeQ='";
  assert.ok(headers.includes(`script-src 'unsafe-hashes' ${GO} https://cdn.example; `), headers);
  assert.ok(headers.includes(`style-src 'self' 'unsafe-hashes' ${red}; `), headers);
  assert.deepEqual(blocked, []);
});

test('what a page cannot tell is kept of the present policy, and a meta policy still blocks', async () => {
  const lines = ["Content-Security-Policy: img-src *; frame-ancestors https://a.example; trusted-types x",
    'Content-Security-Policy-Report-Only: sandbox; report-uri /r'];
  const meta = "<meta http-equiv=Content-Security-Policy content=\"img-src 'none'\"><img src=/a.png>";
  const { headers, kept, blocked, before } = await propose(engine, { pages: [pageOf(meta, lines)] });
  assert.equal(headers, "Content-Security-Policy: default-src 'none'; img-src 'self'; object-src 'none'; "
    + "base-uri 'none'; form-action 'none'; frame-ancestors https://a.example; report-uri /r; "
    + 'trusted-types x\n');
  assert.deepEqual(kept, ['frame-ancestors https://a.example', 'trusted-types x', 'report-uri /r']);
  const advice = 'a meta element of the page blocks it: change its img-src';
  assert.deepEqual(blocked.map(it => it.advice), [advice]);
  assert.equal(before.requests, 1);
});

test('what frames of a recording load is left out', async () => {
  const entry = (n, url, to, referer) => ({
    startedDateTime: `2026-01-01T00:00:0${n}Z`,
    request: { url, headers: [['Sec-Fetch-Dest', to], ['Referer', referer]].map(([name, value]) =>
      ({ name, value })) },
    response: { status: 200, headers: [], content: { mimeType: 'text/html', text: '<p>' } },
  });
  const video = 'https://video.example/7';
  const text = JSON.stringify({ log: { entries: [
    entry(0, `${ORIGIN}/`, 'document', ''), entry(1, video, 'iframe', `${ORIGIN}/`),
    entry(2, 'https://ads.example/x', 'image', video), entry(3, `${ORIGIN}/a.png`, 'image', `${ORIGIN}/`),
  ] } });
  const { pages } = readSite([{ name: 'x.har', text }], { parse });
  const { headers, left } = await propose(engine, { pages });
  assert.ok(headers.includes("img-src 'self'; ") && headers.includes('frame-src https://video.example; '));
  const said = `frame ${video}: left out, since it has headers of its own`;
  assert.deepEqual(left, [{ file: 'x.har', said }]);
});

const POLICY = "default-src 'self'; script-src 'self'; img-src 'self'";
const reported = rows => {
  const tally = new Tally();
  for (const [count, directive, blocked] of rows) {
    const violation = {
      directive, blocked, disposition: 'report', policy: POLICY, page: `${ORIGIN}/x`, file: '', sample: '',
    };
    for (let n = 0; n < count; n += 1) tally.add(violation);
  }
  return tally.ended().groups;
};

test('an addition: the sources that end most reports first, and what may be noise', async () => {
  const reports = reported([
    [300, 'img-src', 'https://img.example/a.png'], [80, 'connect-src', 'wss://api.example/x'],
    [32, 'script-src-elem', 'https://b.example/x.js'], [380, 'script-src-elem', 'inline'],
    [3, 'script-src-elem', 'data'], [4, 'img-src', 'https://odd.example/x'],
    [1, 'img-src', `${ORIGIN}/own.png`],
  ]);
  const headers = [`Content-Security-Policy-Report-Only: ${POLICY}`];
  const answer = await propose(engine, { form: 'addition', reports, headers });
  assert.equal(answer.headers, "Content-Security-Policy-Report-Only: default-src 'self'; "
    + "script-src 'self' https://b.example; img-src 'self' https://img.example; "
    + "connect-src 'self' wss://api.example\n");
  assert.deepEqual(answer.additions.map(it => [it.count, it.directive, it.sources.join(), it.isTaken]), [
    [300, 'img-src', 'https://img.example', true], [80, 'connect-src', 'wss://api.example', true],
    [32, 'script-src', 'https://b.example', true], [4, 'img-src', 'https://odd.example', false],
  ]);
  const counts = [answer.asked, answer.before, answer.after].map(it => it.reports);
  assert.deepEqual(counts, [800, 799, 387]);
});

test('an addition that the engine finds to end nothing is none', async () => {
  const reports = reported([[5, 'script-src-elem', 'https://b.example/x.js']])
    .map(it => ({ ...it, request: { ...it.request, 'parser-inserted': true } }));
  const headers = ["Content-Security-Policy: script-src 'nonce-abc' 'strict-dynamic'"];
  const { additions, blocked } = await propose(engine, { form: 'addition', reports, headers });
  assert.deepEqual([additions, blocked.map(it => it.advice)], [[], ['give its element the nonce']]);
});

test('where there is nothing to go by, there is no proposal', async () => {
  await assert.rejects(propose(engine, {}), { name: 'Refusal', problem: /nothing that a policy/ });
  const pages = [pageOf('<img src=/a.png>')];
  await assert.rejects(propose(engine, { form: 'addition', pages }), { name: 'Refusal', file: 'headers' });
});
