// The words of policies that readers know, and how a word is found that was meant.

/** Directives that browsers of today act on. */
export const DIRECTIVES = [
  'default-src', 'script-src', 'script-src-elem', 'script-src-attr', 'style-src', 'style-src-elem',
  'style-src-attr', 'img-src', 'font-src', 'connect-src', 'media-src', 'object-src', 'frame-src', 'child-src',
  'worker-src', 'manifest-src', 'fenced-frame-src', 'base-uri', 'form-action', 'frame-ancestors', 'sandbox',
  'report-uri', 'report-to', 'upgrade-insecure-requests', 'require-trusted-types-for', 'trusted-types',
  'webrtc',
];

/** Directives that browsers no longer act on, with what stands in their place. */
export const DEPRECATED = new Map([
  ['block-all-mixed-content', 'browsers block or upgrade mixed content without it'],
  ['navigate-to', 'no browser has it'],
  ['plugin-types', 'browsers have no plugins any more; object-src decides'],
  ['prefetch-src', 'default-src decides about prefetches'],
  ['referrer', 'the header Referrer-Policy decides'],
  ['reflected-xss', 'nothing stands in its place'],
  ['require-sri-for', 'the header Integrity-Policy decides'],
]);

/** Keywords, with their quotes. */
export const KEYWORDS = [
  "'self'", "'none'", "'unsafe-inline'", "'unsafe-eval'", "'unsafe-hashes'", "'strict-dynamic'",
  "'report-sample'", "'wasm-unsafe-eval'", "'inline-speculation-rules'", "'trusted-types-eval'",
  "'report-sha256'", "'report-sha384'", "'report-sha512'", "'unsafe-allow-redirects'", "'allow-duplicates'",
  "'script'", "'allow'", "'block'",
];

/** @param {string} text */
export const asciiLower = text => text.replace(/[A-Z]+/g, it => it.toLowerCase());

/** @param {string} name */
export const isDirective = name => DIRECTIVES.includes(name) || DEPRECATED.has(name);

/**
 * How many letters have to be put in, taken out, changed or swapped with the next one to make one text of
 * the other.
 * @param {string} a
 * @param {string} b
 */
const distance = (a, b) => {
  let [before, above] = [/** @type {number[]} */ ([]), Array.from({ length: b.length + 1 }, (_, at) => at)];
  for (let i = 1; i <= a.length; i += 1) {
    const row = [i];
    for (let j = 1; j <= b.length; j += 1) {
      const changed = above[j - 1] + Number(a[i - 1] !== b[j - 1]);
      const isSwap = i > 1 && j > 1 && a[i - 1] === b[j - 2] && a[i - 2] === b[j - 1];
      const swapped = isSwap ? before[j - 2] + 1 : changed;
      row.push(Math.min(above[j] + 1, row[j - 1] + 1, changed, swapped));
    }
    [before, above] = [above, row];
  }
  return above[b.length];
};

/**
 * The word of a list that was most likely meant, or nothing where none is near: one letter of a short
 * word may differ, two of a longer one, and three of a long one.
 * @param {string} word
 * @param {string[]} words
 * @returns {string | undefined}
 */
export const nearest = (word, words) => {
  const most = word.length < 7 ? 1 : word.length < 18 ? 2 : 3;
  const far = words.map(it => ({ it, far: distance(asciiLower(word), it) }));
  return far.filter(it => it.far <= most).sort((a, b) => a.far - b.far)[0]?.it;
};
