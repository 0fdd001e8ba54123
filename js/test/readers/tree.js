// The parser that the tests of the readers use.
import { readFileSync } from 'node:fs';

await import('../debian.js');
export const { parseHtml } = await import('../../readers/parse5.js');

/**
 * A file of the folder of data, as text.
 * @param {string} name
 */
export const data = name => readFileSync(new URL(`data/${name}`, import.meta.url), 'utf8');
