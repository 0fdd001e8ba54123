// Every line that is expected here is what docs/PROOF-FORMAT.md and docs/RULES.md say of the case.
import assert from 'node:assert/strict';
import { readFileSync } from 'node:fs';
import { test } from 'node:test';
import { checkProof } from '../checker.js';

const example = (name) => readFileSync(new URL(`../../examples/check/${name}.txt`, import.meta.url), 'utf8');
const ORIGIN = 'https://a.example';
const LISTS = { origin: ORIGIN, new: example('new'), old: example('old') };
const header = (policy) => `Content-Security-Policy: ${policy}\n`;
const written = (lines) => lines.map((line) => `${line}\n`).join('');

// "A proof by hand" of docs/PROOF-FORMAT.md in format 2.
const SPLIT = ['split host-is a.example', 'split port-is 443', 'met', 'blocked 0', 'blocked 0'];
const OWN = new Map([[0, ['met']], [36, ['blocked 0']], [37, ['same 36']], [38, SPLIT], [39, ['same 38']]]);
const nodesOf = (shape) => OWN.get(shape) ?? [shape > 39 && shape < 48 ? 'same 36' : 'same 0'];
const TREES = Array.from({ length: 189 }, (_, shape) => [`tree ${shape} 0`, ...nodesOf(shape)]);
const BY_HAND = ['csp-proof 2', ...TREES.flat(), 'end'];

/** The proof by hand with these lines in place of so many, from a line on. */
const changed = (line, count, ...lines) => written(BY_HAND.toSpliced(line - 1, count, ...lines));

test('the proof by hand is accepted in both formats', () => {
  assert.equal(BY_HAND.indexOf('end') + 1, 384);
  for (const proof of [example('accepted'), written(BY_HAND), new TextEncoder().encode(written(BY_HAND))]) {
    assert.deepEqual(checkProof({ ...LISTS, proof }), { accepted: true });
  }
});

test('a proof is rejected at the first line that fails', () => {
  assert.deepEqual(checkProof({ ...LISTS, proof: example('rejected') }), { rejected: 81 });
  for (const [proof, line] of [
    [changed(81, 1, 'blocked 0'), 81], // port 443 of a.example is allowed
    [changed(82, 1, 'blocked 1'), 82], // https: allows another port
    [changed(82, 1, 'blocked 63'), 82], // there is no such policy
    [changed(80, 1, 'split host-is a.example'), 81], // the port isn't known
    [changed(77, 1, 'same 0'), 77], // what fails in the nodes of another tree fails here
    [changed(86, 1, 'tree 39 1'), 86], // there is no such pair
    [changed(86, 2), 86], // the tree of a pair is left out
    [changed(382, 2), 382], // the last pair is left
    [changed(384, 0, 'tree 188 0', 'met'), 384], // no pair is left
  ]) assert.deepEqual(checkProof({ ...LISTS, proof }), { rejected: line });
  const proof = written(BY_HAND);
  const reporting = LISTS.new.replace('Policy:', 'Policy-Report-Only:');
  assert.deepEqual(checkProof({ ...LISTS, new: reporting, proof }), { rejected: 75 });
  assert.deepEqual(checkProof({ ...LISTS, new: LISTS.old, old: LISTS.new, proof }), { rejected: 4 });
  const twice = ['split scheme-is data', 'blocked 0', 'split scheme-is data', 'blocked 0', 'blocked 0'];
  assert.deepEqual(checkProof({ ...LISTS, proof: changed(77, 1, ...twice) }), { accepted: true });
});

test('what is no proof is bad at the first line that cannot stand there', () => {
  for (const [proof, line] of [
    ['', 1], ['csp-proof 3\nend\n', 1], ['\uFEFFcsp-proof 2\nend\n', 1], ['csp-proof 2\r\nend\n', 1],
    ['csp-proof 2', 1], ['csp-proof 2\n', 2], ['csp-proof 2\nend', 2],
    ['csp-proof 2\nend\n\n', 3], ['csp-proof 2\nend\nx', 3], [changed(384, 1), 384],
    [changed(1, 1, 'csp-proof 1'), 5], // `same` is of format 2
    [changed(77, 1, 'same 37'), 77], [changed(77, 1, 'same 38'), 77], // not before
    [changed(77, 1, 'same 35'), 77], // without nodes of its own
    [changed(79, 1, 'split host-domain', 'same 0'), 80], // not in place of all nodes
    [changed(77, 1, 'same 036'), 77], [changed(77, 1, 'same 36 0'), 77], [changed(77, 1, 'same'), 77],
    [changed(84, 0, 'met'), 84], [changed(83, 1), 83], // a node too many, and one too few
    [changed(81, 1, 'met '), 81], [changed(81, 1, ' met'), 81], [changed(81, 1, 'met\r'), 81],
    [changed(81, 1, ''), 81], [changed(81, 1, 'Met'), 81],
    [changed(82, 1, 'blocked 64'), 82], [changed(82, 1, 'blocked 00'), 82], [changed(82, 1, 'blocked'), 82],
    [changed(78, 1, 'tree 189 0'), 78], [changed(78, 1, 'tree 38 64'), 78],
    [changed(78, 1, 'tree 38  0'), 78],
    [`${changed(81, 1, 'blocked 0')}\n`, 385], // although line 81 would fail
  ]) assert.deepEqual(checkProof({ ...LISTS, proof }), { bad: line }, JSON.stringify(proof.slice(-40)));
});

test('each atom has one spelling', () => {
  const digit = 'f'.repeat(64);
  for (const atom of ['host-is a', 'host-is a_b.', 'host-is 1.a', 'host-is 1.2.3.255', 'host-is [::1]',
    'host-under a.example', 'host-domain', 'port-is 0', 'port-is 65535', 'path-is /', 'path-is //',
    'path-is /a%2Fb/-._~', 'path-under /...', 'scheme-is data', 'scheme-is a+1-b.', 'nonce-is Aa0+/-_==',
    'integrity-has sha512 a', 'integrity-outside', `digest-is sha256 ${digit}`,
    `digest-is sha384 ${digit}${digit.slice(32)}`, `digest-is sha512 ${digit}${digit}`,
  ]) assert.equal(checkProof({ ...LISTS, proof: changed(79, 1, `split ${atom}`) }).bad, undefined, atom);
  for (const atom of ['', 'host', 'host-is', 'host-is ', 'host-is A', 'host-is a b', 'host-is a%b',
    'host-is \xe9', 'host-is 1.2.3', 'host-is 1.2.3.04', 'host-is 1.2.3.256', 'host-is a.1.', 'host-is a.0x',
    'host-is [::G]', 'host-under 1.2.3.4', 'host-under [::1]', 'host-domain ', 'host-domain a',
    'port-is 080', 'port-is 65536', 'path-is', 'path-is a', 'path-is /%2f', 'path-is /%41', 'path-is /!',
    'path-is /%7E', 'path-is /a/%5F', 'path-is /%', 'path-is /%2G',
    'path-is /.', 'path-under /a/..', 'scheme-is Data', 'scheme-is https', 'scheme-is ftp', 'scheme-is 1',
    'nonce-is a===', 'nonce-is =', 'integrity-has sha1 a', 'integrity-has SHA256 a', 'integrity-outside a',
    `digest-is sha256 ${digit.slice(1)}`, `digest-is sha384 ${digit}`,
    `digest-is sha256 ${digit.toUpperCase()}`,
  ]) assert.deepEqual(checkProof({ ...LISTS, proof: changed(79, 1, `split ${atom}`) }), { bad: 79 }, atom);
});

const NOTHING = "default-src 'none'; form-action 'none'; base-uri 'none'; frame-ancestors 'none'; sandbox";

/** Which of these nodes fails first. The first list has the policies NOTHING and `other`. */
function failing(policy, shape, nodes, origin = ORIGIN, other = policy) {
  const before = Array.from({ length: shape }, (_, number) => [`tree ${number} 0`, 'blocked 0']).flat();
  const proof = written(['csp-proof 1', ...before, `tree ${shape} 0`, ...nodes, 'end']);
  const said = checkProof({ origin, new: header(NOTHING) + header(other), old: header(policy), proof });
  const place = said.rejected - before.length - 3;
  return said.accepted || place === nodes.length ? undefined : place;
}

/** That the policy allows everything at a shape, or nothing. */
function answers(policy, shape, isAllowed, origin) {
  const places = ['met', 'blocked 1'].map((leaf) => failing(policy, shape, [leaf], origin));
  assert.deepEqual(places, isAllowed ? [undefined, 0] : [0, undefined], `${policy} at ${shape}`);
}

// Images are the shapes 36 to 47: two for each of http, https, ws, wss, ftp and any other scheme.
const WITHOUT_ATOMS = [
  ['img-src *', [36, 37, 38, 40, 42], [44, 46]],
  ['img-src', [35, 48], [36, 47]],
  ['image-src', [36], []],
  ["img-src 'none'", [], [36, 38, 46]],
  ['img-src http:', [36, 38], [40, 42, 44, 46]],
  ['img-src https:', [38], [36, 40, 42, 44]],
  ['img-src ws:', [36, 38, 40, 42], [44]],
  ['img-src WSS:', [38, 42], [36, 40, 44]],
  ['img-src ftp:', [44], [36, 38, 46]],
  ["img-src 'self'", [], [36, 40, 44, 46]],
  ["img-src 'self'", [], [36, 38, 42], 'null'],
  ["img-src 'self'", [], [38, 42, 44], 'http://a.example:443'],
  ['img-src a.example', [], [36, 44, 46]],
  ['img-src a.example', [], [36, 38, 40, 42, 44], 'null'],
  ['img-src https://1.2.3', [], [38]],
  ['img-src https://*.1', [], [38]],
  ['img-src https://010.0.0.1', [], [38]],
  ['img-src https://a:65536', [], [38]],
  ['img-src https://a:9999999999999999999999', [], [38]],
  ['img-src https://a/%2e%2E/', [], [38]],
  ['img-src https://a/%', [], [38]],
  ['img-src [::1]', [], [38]],
  ["default-src 'none'", [144, 156, 162, 168, 176], [0, 12, 24, 48, 60, 72, 84, 96, 108, 120, 132, 175]],
  ["child-src 'none'", [0, 36, 96], [24, 120]],
  ["frame-src *; child-src 'none'", [24], [120]],
  ["child-src *; script-src 'none'", [120], [96]],
  ["script-src 'none'", [0, 84, 171], [96, 120, 169, 170, 173, 174, 175]],
  ["script-src-elem 'none'", [120, 170, 174], [96, 108, 169, 173]],
  ["style-src 'none'", [96, 169], [84, 171, 172]],
  ["worker-src *; script-src 'none'", [120, 132], [96, 130]],
  ["form-action 'none'", [96, 156], [144, 155]],
  ["base-uri 'none'", [155, 162], [156, 161]],
  ['frame-ancestors *', [162, 163], [166, 167, 168]],
  ['frame-ancestors https://a/b', [], [163]],
  ["script-src-elem 'strict-dynamic'", [96, 107], [108, 119, 169]],
  ["script-src 'Strict-Dynamic' *", [120, 131], [132]],
  ["worker-src 'strict-dynamic'", [], [120, 132]],
  ["default-src 'unsafe-inline'", [169, 170, 171, 172, 173], [96, 174, 175]],
  ["default-src 'unsafe-inline' 'strict-dynamic'", [171, 172], [169, 170, 173]],
  ["script-src-attr 'unsafe-inline' 'nonce-a'", [169], [170]],
  ["style-src 'unsafe-inline' 'sha256-a'", [], [172]],
  ["script-src 'unsafe-eval'", [174, 175], [169]],
  ["script-src 'wasm-unsafe-eval'", [175], [174]],
  ['sandbox', [0, 175], [176, 182, 187, 188]],
  ['sandbox allow-forms Allow-Downloads', [176, 187], [177, 178, 188]],
  ['sandbox allow-top-navigation', [181, 182], [180, 183]],
  ['sandbox allow-top-navigation-by-user-activation', [182], [181]],
  ['sandbox allow-scripts', [177], [188]],
  ['sandbox allow-scripts allow-same-origin', [188], []],
];

test('what a policy says of a shape without atoms', () => {
  for (const [policy, allowed, blocked, origin] of WITHOUT_ATOMS) {
    for (const shape of allowed) answers(policy, shape, true, origin);
    for (const shape of blocked) answers(policy, shape, false, origin);
  }
});

/** That the policy allows at a shape exactly what has all of these atoms. */
function wants(policy, shape, atoms, origin) {
  const nodes = [...atoms.map((atom) => `split ${atom}`), 'met', ...atoms.map(() => 'blocked 1')];
  assert.equal(failing(policy, shape, nodes, origin), undefined, `${policy} at ${shape}`);
}

// The SHA-256 of the empty text.
const EMPTY = 'e3b0c44298fc1c149afbf4c8996fb92427ae41e4649b934ca495991b7852b855';
const EMPTY_HASH = 'sha256-47DEQpj8HBSa+/TImW+5JCeuQeRkm5NMpJWZG3hSuFU=';

test('what a policy says of a shape with atoms', () => {
  wants('img-src A.example', 38, ['host-is a.example', 'port-is 443']);
  wants('img-src http://a.example:080', 38, ['host-is a.example', 'port-is 80']);
  wants('img-src https://10.0.0.1:*/a/%62/', 38, ['host-is 10.0.0.1', 'path-under /a/b']);
  wants('img-src *.a.example:*/a/b%2f!', 38, ['host-under a.example', 'path-is /a/b%2F%21']);
  wants('img-src https://*:8443/a//', 38, ['host-domain', 'port-is 8443', 'path-under /a/']);
  wants('img-src https://*:8443/a', 39, ['host-domain', 'port-is 8443']);
  wants('frame-ancestors https://a.example:*/', 163, ['host-is a.example']);
  wants('base-uri ftp://a.example/b', 160, ['host-is a.example', 'port-is 21', 'path-is /b']);
  wants('img-src data:', 46, ['scheme-is data']);
  wants("img-src 'Self'", 38, ['host-is a.example', 'port-is 443']);
  wants("img-src 'self'", 42, ['host-is [::1]', 'port-is 8443'], 'https://[::1]:8443');
  wants("img-src 'self'", 38, ['host-is a.example', 'port-is 443'], 'http://a.example');
  wants("img-src 'self'", 36, ['host-is a.example', 'port-is 80'], 'http://a.example/');
  wants("style-src 'nonce-a'", 84, ['nonce-is a']);
  wants("style-src 'Nonce-aB='", 171, ['nonce-is aB=']);
  wants("script-src-elem 'nonce-a' 'strict-dynamic'", 108, ['nonce-is a']);
  wants(`style-src '${EMPTY_HASH}'`, 171, [`digest-is sha256 ${EMPTY}`]);
  const spelledForUrls = EMPTY_HASH.slice(7).replaceAll('+', '-').replaceAll('/', '_');
  wants(`style-src 'sha256-${spelledForUrls}' 'unsafe-hashes'`, 172, [`digest-is sha256 ${EMPTY}`]);
  answers(`style-src '${EMPTY_HASH}' 'nonce-a'`, 172, false); // neither acts on an attribute
  const undigested = [EMPTY_HASH.slice(0, -1), EMPTY_HASH.replace('=', 'A'), EMPTY_HASH.replace('U=', 'V='),
    EMPTY_HASH.replace('256', '384')];
  for (const hash of undigested) answers(`script-src '${hash}'`, 169, false);
  const pairs = ['split integrity-outside', 'blocked 1', 'split integrity-has sha512 b', 'blocked 1',
    'split integrity-has sha256 a', 'met', 'blocked 1'];
  assert.equal(failing("script-src 'SHA256-a'; x-none 'sha512-b'", 96, pairs), undefined);
  assert.equal(failing("script-src 'sha256-a'; x-none 'sha512-b'", 120, pairs), undefined);
  assert.equal(failing("script-src 'sha256-a'; x-none 'sha512-b'", 96, pairs.toSpliced(2, 2)), 3);
  assert.equal(failing("script-src 'sha256-a'", 96, pairs.slice(4)), 1);
  const lists = ["script-src 'sha256-a'; x-none 'sha512-b'", "script-src 'sha256-a'"];
  for (const [first, second] of [lists, lists.toReversed()]) { // the vocabulary is that of both lists
    assert.equal(failing(second, 96, pairs.toSpliced(2, 2), ORIGIN, first), 3);
    assert.equal(failing(second, 96, pairs, ORIGIN, first), undefined);
  }
});

const onHost = (host) => [`img-src https://${host}:*`, 38];
const onPath = (path) => [`img-src https://*:*${path}`, 38];

// The atom of a split, a policy with a shape, and what it says where the atom holds and where it doesn't.
const LITERALS = [
  ['host-is a.b', onHost('a.b'), true, false], ['host-is a.b', onHost('c'), false],
  ['host-is a.b', onHost('*.b'), true], ['host-is a.b', onHost('*.a.b'), false],
  ['host-is xb', onHost('*.b'), false], ['host-is a', onHost('*'), true],
  ['host-is 1.2.3.4', onHost('*'), false], ['host-is [::1]', onHost('*.b'), false],
  ['host-under b', onHost('*'), true], ['host-under a.b', onHost('*.b'), true],
  ['host-under b', onHost('*.b'), true, false], ['host-under b', onHost('*.a.b'), undefined, false],
  ['host-under xb', onHost('*.b'), false], ['host-under b', onHost('1.2.3.4'), false],
  ['host-under b', onHost('b'), false], ['host-under b', onHost('a.b'), undefined, false],
  ['host-domain', onHost('*'), true, false], ['host-domain', onHost('1.2.3.4'), false],
  ['host-domain', onHost('a'), undefined, false], ['host-domain', onHost('*.a'), undefined, false],
  ['path-is /a/b', onPath('/a/b'), true, false], ['path-is /a', onPath('/a/b'), false],
  ['path-is /a/b', onPath('/a/'), true], ['path-is /a', onPath('/a/'), false],
  ['path-is /ab', onPath('/a/'), false], ['path-under /a', onPath('/a/'), true, false],
  ['path-under /a/b', onPath('/a/'), true], ['path-under /a', onPath('/a/b/'), undefined, false],
  ['path-under /c', onPath('/a/'), false], ['path-under /a', onPath('/a'), false],
  ['path-under /ab', onPath('/a/'), false], ['path-under /a', onPath('/ab/'), false],
  ['path-under /a', onPath('/ab'), false], ['path-under /a', onPath('/a/b'), undefined, false],
  ['port-is 8', ['img-src https://*:8', 38], true, false], ['port-is 8', ['img-src https://*:9', 38], false],
  ['scheme-is data', ['img-src data:', 46], true, false], ['scheme-is data', ['img-src blob:', 46], false],
  ['nonce-is a', ["style-src 'nonce-a'", 84], true, false],
  ['nonce-is b', ["style-src 'nonce-a'", 84], false],
  [`digest-is sha256 ${EMPTY}`, [`style-src '${EMPTY_HASH}'`, 171], true, false],
  [`digest-is sha256 ${'f'.repeat(64)}`, [`style-src '${EMPTY_HASH}'`, 171], false],
  [`digest-is sha384 ${'f'.repeat(96)}`, [`style-src '${EMPTY_HASH}'`, 171]],
  ['integrity-has sha256 b', ["script-src 'sha256-a'; x 'sha256-b'", 96], false],
  ['integrity-has sha256 a', ["script-src 'sha256-a'", 96], undefined, false],
  ['integrity-has sha256 c', ["script-src 'sha256-a'", 96]],
  ['integrity-outside', ["script-src 'sha256-a'", 96], false],
  ['port-is 8', onHost('a')], ['host-is a', onPath('/b')],
];

test('what one literal says of an atom', () => {
  for (const [atom, [policy, shape], holds, lacks] of LITERALS) {
    // What `https://*` says of the host is settled above, so that the port or the path alone is left.
    const isBelow = /^(path|port)/.test(atom) && policy.includes('*');
    const [above, after] = isBelow ? [['split host-domain'], ['blocked 1']] : [[], []];
    for (const [leaf, value] of [['met', true], ['blocked 1', false]]) {
      const start = [...above, `split ${atom}`];
      const places = [[leaf, 'blocked 0'], ['blocked 0', leaf]].map(
        (leaves) => failing(policy, shape, [...start, ...leaves, ...after]));
      const wanted = [holds, lacks].map((said, n) => (said === value ? undefined : start.length + n));
      assert.deepEqual(places, wanted, `${atom}, ${policy}, ${leaf}`);
    }
  }
});

test('the first literal that says something of an atom counts', () => {
  const nodes = ['split host-is a', 'split host-is b', 'met', 'blocked 0', 'blocked 0'];
  assert.equal(failing('img-src https://a:*', 38, nodes), undefined);
  assert.equal(failing('img-src https://b:*', 38, nodes), 2);
});

test('header blocks are read by the rules', () => {
  // A proof without trees is accepted just where the second list has no enforced policy.
  const none = { origin: 'null', new: '', proof: 'csp-proof 1\nend\n' };
  for (const old of ['', '\n\r\n', '\r', 'HTTP/2 200\r\nServer: x', 'HTTP/\x00', 'a:\xe9', header(';,'),
    header('a \xe9'), 'Content-Security-Policy-Report-Only: a',
    'Meta-Content-Security-Policy: sandbox; report-uri; frame-ancestors',
  ]) assert.deepEqual(checkProof({ ...none, old }), { accepted: true }, old);
  for (const old of ['content-SECURITY-policy:a\r', `x: y\n${header('; \xe9; A')}`,
    'Meta-Content-Security-Policy: a',
  ]) assert.deepEqual(checkProof({ ...none, old }), { rejected: 2 }, old);
  answers('img-src *; IMG-src', 38, true);
  answers("img-src \xe9; IMG-SRC\t'none'", 38, false);
  for (const [old, one, other] of [
    ['Content-Security-Policy-Report-Only: a\nContent-Security-Policy: b, , c\n', 1, 2],
    ['Meta-Content-Security-Policy: a, b\nContent-Security-Policy: c', 0, 1],
  ]) {
    // The end is reached after these three trees only if the enforced policies have these numbers.
    const proof = `csp-proof 1\ntree 0 ${one}\nmet\ntree 0 ${other}\nmet\ntree 1 ${one}\nmet\nend\n`;
    assert.deepEqual(checkProof({ ...none, old, proof }), { rejected: 8 });
  }
});

test('an error has the message of the command', () => {
  const given = { origin: ORIGIN, new: '', old: '', proof: 'csp-proof 1\nend\n' };
  assert.deepEqual(checkProof({ ...given, new: header(`a${' b'.repeat(1024)}`) }), { accepted: true });
  for (const [question, message] of [
    ...['a.example', 'https://a/b', 'https://a?', 'https://a#', 'https://u@a', 'ftp://a', 'NULL', ''].map(
      (origin) => [{ origin, new: 'x' }, 'bad origin']),
    ...['x', ' a: b', 'a b: c', ': x', 'a: \x7f', '\uFEFFa: b', 'HTTP/1\nHTTP/2'].map(
      (text) => [{ new: text, old: 'x' }, `bad policy: first line ${text.split('\n').length}`]),
    [{ old: 'HTTP/2\n\na: b\r\r\n', proof: '' }, 'bad policy: second line 3'],
    [{ new: 'a: \n'.repeat(2_097_153) }, 'too large: first bytes'],
    [{ old: header('a,'.repeat(65)) }, 'too large: second policies'],
    [{ new: header(`a${' b'.repeat(1025)}`) }, 'too large: first sources'],
    [{ new: header(`a ${'b'.repeat(4097)}`) }, 'too large: first token'],
    [{ new: header(`a ${'b.'.repeat(4_000_000)}`) }, 'too large: first token'],
    [{ proof: ' '.repeat(67_108_865) }, 'too large: proof bytes'],
  ]) {
    const isTold = (error) => error.message.split('\n')[0] === message;
    assert.throws(() => checkProof({ ...given, ...question }), isTold, message);
  }
});
