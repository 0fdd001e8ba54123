/** The parser of HTML, which is fetched only where there is HTML to read. */
import { Refusal } from '../refusal.js';

const FAULT = 70;

/** @returns {Promise<import('../readers/html.js').Parse>} */
export const htmlParser = async () => {
  try {
    return (await import('../readers/parse5.js')).parseHtml;
  } catch (error) {
    if (/** @type {NodeJS.ErrnoException} */ (error).code !== 'ERR_MODULE_NOT_FOUND') throw error;
    const hint = 'Install it beside guidecerise: npm install parse5';
    throw new Refusal(FAULT, { problem: 'to read HTML this needs the package parse5', hint });
  }
};
