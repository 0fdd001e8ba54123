import { Refusal, compare, loadEngine } from 'guidecerise';

const engine = await loadEngine();
try {
  const answer = compare(engine, {
    origin: 'https://a.example',
    new: "Content-Security-Policy: img-src 'self' https://*.cdn.example.net",
    old: "Content-Security-Policy: img-src 'self' https://cdn.example.net",
  });
  console.log(answer.weaker ? `weaker: ${answer.url} is now allowed` : 'not weaker');
} catch (error) {
  console.log(error instanceof Refusal ? `no answer: ${error.message}` : error);
}
