/** The page's own policy, judged and audited before everybody's eyes. */
import { readHtml } from '../js/readers/html.js';
import { parseHtml } from '../js/readers/parse5.js';
import { attacker } from './attacker.js';
import { blocked } from './blocked.js';

const OWN = [
  { kind: 'fetch', destination: 'worker', url: { scheme: 'blob' }, note: 'the worker that has the engine' },
  { kind: 'wasm', note: 'the engine, which is WebAssembly' },
];

/**
 * What the page's policy does with the page, and what an attacker could do who writes markup into it.
 * @param {import('../js/index.js').Program} program
 * @param {{ html: string }} given the page as it was opened
 */
export const own = async (program, { html }) => {
  const page = readHtml(html, { url: 'https://page.invalid/', parse: parseHtml }), { meta } = page;
  const more = OWN.map(request => ({ request, meta, said: request.note }));
  const pieces = [...page.pieces.filter(it => !it.possible), ...more];
  const site = { pages: [{ ...page, pieces, file: 'this page', url: '' }], events: [], left: [] };
  const given = { site, origin: 'null', reading: { name: 'this page', lines: meta, left: [] } };
  return [await blocked(program, given, () => {}), attacker(program, given)];
};
