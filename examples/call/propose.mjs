import { loadEngine } from 'guidecerise';
import { propose } from 'guidecerise/propose';
import { parseHtml } from 'guidecerise/readers/parse5';
import { readSite } from 'guidecerise/readers/site';

const files = [{ name: 'index.html', text: '<script src=/app.js></script><p onclick=go()>' }];
const { pages } = readSite(files, { parse: parseHtml, base: 'https://a.example/' });
const { headers, nonces, blocked } = await propose(await loadEngine(), { form: 'strict', pages });
console.log(headers);
for (const { line, said } of nonces) console.log(`line ${line}: ${said} has to get the nonce`);
for (const { line, said, advice } of blocked) console.log(`line ${line}: ${said}: ${advice}`);
