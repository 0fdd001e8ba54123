import { judge, loadEngine, type Request, type Verdict } from 'guidecerise';

const requests: Request[] = [
  { kind: 'fetch', destination: 'image', url: 'https://cdn.example.org/logo.png' },
  { kind: 'inline', type: 'script', source: 'start()', nonce: 'r4nd0m' },
];
const headers = "Content-Security-Policy: default-src 'self'; script-src 'nonce-r4nd0m'";
const verdicts: Verdict[] = judge(await loadEngine(), { origin: 'https://a.example', headers, requests });
for (const { number, blocked, items } of verdicts) {
  console.log(number, blocked ? `blocked by ${items[0].governing}` : 'allowed');
}
