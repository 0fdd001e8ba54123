/** Policies as a picture: directives by hosts, what a page needed, and what the policies give. */
import { judge } from '../js/index.js';
import { urlOf } from '../js/readers/urls.js';
import { groupedBy } from './answer.js';
import { headersText, policiesIn } from './reading.js';
import { say } from './sentences.js';

/**
 * @typedef {import('../js/index.js').Program} Program
 * @typedef {import('../js/requests.js').Request} Request
 * @typedef {import('../js/readers/html.js').Request} Read
 * @typedef {import('./rows.js').PageAnswer} PageAnswer
 * @typedef {import('./answer.js').Block} Block
 * @typedef {import('./answer.js').Sign} Sign
 * @typedef {{ directive: string, column: string }} Place
 */

// Each directive, and what it decides about
const DIRECTIVES = /** @type {[directive: string, destinations: string[]][]} */ ([
  ['script-src', ['script', 'audioworklet', 'paintworklet']], ['style-src', ['style']],
  ['img-src', ['image']],
  ['font-src', ['font']], ['connect-src', ['']], ['frame-src', ['iframe', 'frame']],
  ['media-src', ['video', 'audio', 'track']], ['object-src', ['object', 'embed']],
  ['manifest-src', ['manifest']],
  ['worker-src', ['worker', 'sharedworker', 'serviceworker']], ['form-action', []], ['base-uri', []],
  ['frame-ancestors', []],
]);
const ALWAYS = ['script-src', 'style-src', 'img-src', 'connect-src', 'frame-src'];
const KINDS = /** @type {Record<string, string>} */ ({
  form: 'form-action', base: 'base-uri', ancestors: 'frame-ancestors', eval: 'script-src', wasm: 'script-src',
});
const MOST_HOSTS = 12;
const OWN = 'own origin', OTHERS = 'any other host';
const ELEMENTS = 'inline', ATTRIBUTES = 'attributes', EVAL = 'eval', CODE = [ELEMENTS, ATTRIBUTES, EVAL];
const SPECIAL = [...CODE, 'data:', 'blob:'];

/** @param {Read} request */
const directiveOf = ({ kind, destination, type }) => {
  if (kind === 'inline') return type.startsWith('style') ? 'style-src' : 'script-src';
  return KINDS[kind] ?? DIRECTIVES.find(it => it[1].includes(destination))?.[0];
};

/**
 * @param {Read} request
 * @param {string} origin
 */
const columnOf = ({ kind, type, url, urls, ancestors }, origin) => {
  if (kind === 'inline') return type === 'script' || type === 'style' ? ELEMENTS : ATTRIBUTES;
  if (kind === 'eval' || kind === 'wasm') return EVAL;
  const first = urls?.[0] ?? ancestors?.[0] ?? url;
  const text = typeof first === 'string' ? first : `${first?.scheme}:`;
  const parsed = urlOf(text);
  if (parsed === undefined || parsed.host === '') return /^(?:data|blob):/.exec(text)?.[0];
  return parsed.origin === origin ? OWN : parsed.host;
};

/**
 * @param {Read} request
 * @param {string} origin
 * @returns {Place[]}
 */
const placesOf = (request, origin) => {
  const directive = directiveOf(request), column = columnOf(request, origin);
  return directive === undefined || column === undefined ? [] : [{ directive, column }];
};

const HOST = /^(?:[a-z][a-z0-9+.-]*:\/\/)?((?:\*\.)?[a-z0-9-]+(?:\.[a-z0-9-]+)+)(?::\d+|:\*)?(?:\/\S*)?$/i;

/**
 * The hosts that directives name.
 * @param {readonly import('../js/policies.js').Directive[]} directives
 * @param {string} origin
 */
const namedIn = (directives, origin) => directives
  .filter(it => /-src|-action|^base-uri|-ancestors/.test(it.name)).flatMap(it => it.values)
  .flatMap(it => HOST.exec(it)?.[1].toLowerCase() ?? []).filter(it => it !== urlOf(origin)?.host);

/**
 * Any code in a page, or in attributes.
 * @param {Place} place
 * @returns {Request | undefined}
 */
const codeProbe = ({ directive, column }) => {
  const what = directive === 'script-src' ? 'script' : directive === 'style-src' ? 'style' : undefined;
  if (column === EVAL) return directive === 'script-src' ? { kind: 'eval' } : undefined;
  if (what === undefined) return undefined;
  const type = column === ELEMENTS ? what : `${what}-attribute`;
  return /** @type {Request} */ ({ kind: 'inline', type, source: '/* any */' });
};

/**
 * A request that asks whether policies give something to a host, or to code in the page.
 * @param {Place} place
 * @param {string} origin
 * @returns {Request | undefined}
 */
const probeOf = (place, origin) => {
  const { directive, column } = place;
  if (CODE.includes(column)) return codeProbe(place);
  if (column === OWN && origin === 'null') return undefined;
  const host = column === OTHERS ? 'any-other-host.invalid' : column.replace(/^\*/, 'any');
  const url = column.endsWith(':') ? column : column === OWN ? `${origin}/` : `https://${host}/`;
  if (directive === 'form-action') return { kind: 'form', url };
  if (directive === 'base-uri') return { kind: 'base', url };
  if (directive === 'frame-ancestors') {
    return column.endsWith(':') ? undefined : { kind: 'ancestors', ancestors: [url] };
  }
  const [destination] = DIRECTIVES.find(it => it[0] === directive)?.[1] ?? [''];
  return /** @type {Request} */ ({ kind: 'fetch', destination, url });
};

/** @param {Place} place */
const keyOf = ({ directive, column }) => `${directive} ${column}`;

/**
 * The places that headers give something to.
 * @param {Program} program
 * @param {{ origin: string, lines: readonly string[] }} given
 * @param {Place[]} places
 */
const givenTo = (program, { origin, lines }, places) => {
  const asked = places.flatMap(place => {
    const request = probeOf(place, origin);
    return request === undefined ? [] : [{ place, request }];
  });
  const headers = headersText(lines), requests = asked.map(it => it.request);
  const verdicts = judge(program, { origin, headers, requests });
  return new Set(asked.filter((_, n) => !verdicts[n].blocked).map(it => keyOf(it.place)));
};

/**
 * The rows and columns of a picture.
 * @param {Program} program
 * @param {readonly string[]} lines
 * @param {string} origin
 * @param {Place[]} needed
 * @param {string[]} urgent the columns that come first
 */
const axesOf = (program, lines, origin, needed, urgent) => {
  const present = policiesIn(program, lines).flatMap(it => it.directives);
  const names = present.map(it => it.name.replace(/-(?:elem|attr)$/, ''));
  const directives = DIRECTIVES.map(it => it[0]).filter(it =>
    ALWAYS.includes(it) || names.includes(it) || needed.some(of => of.directive === it));
  const others = needed.map(it => it.column).filter(it => !SPECIAL.includes(it) && it !== OWN);
  const loaded = groupedBy(others, it => it).sort((a, b) => b.length - a.length).map(it => it[0]);
  const all = [...loaded.filter(it => urgent.includes(it)), ...loaded, ...namedIn(present, origin)];
  const hosts = [...new Set(all)], text = lines.join(' ');
  const code = SPECIAL.filter(it =>
    CODE.includes(it) || needed.some(of => of.column === it) || text.includes(it));
  return { directives, columns: [OWN, ...hosts.slice(0, MOST_HOSTS), OTHERS, ...code], hosts: hosts.length };
};

/**
 * The rows of a picture. What no request can ask, and nothing needs, stays empty.
 * @param {ReturnType<typeof axesOf>} axes
 * @param {string} origin
 * @param {Sign} none what stands where there is no other sign
 * @param {(key: string) => Sign | undefined} signOf
 */
const rowsOf = ({ directives, columns }, origin, none, signOf) => directives.map(directive => ({
  directive, signs: columns.map(column => {
    const place = { directive, column }, isAsked = probeOf(place, origin) !== undefined;
    return signOf(keyOf(place)) ?? (isAsked ? none : { sign: '', means: '' });
  }),
}));

/** @param {ReturnType<typeof axesOf>} axes */
const placesIn = ({ directives, columns }) =>
  directives.flatMap(directive => columns.map(column => ({ directive, column })));

/** @type {Sign} */
const NO = { sign: '·', means: 'not allowed, and not needed' };
const NEEDED = /** @type {Record<'blocked' | 'reported' | 'allowed' | 'unneeded', Sign>} */ ({
  blocked: { sign: '✕', mood: 'bad', means: 'needed and blocked' },
  reported: { sign: '!', mood: 'warn', means: 'needed and reported' },
  allowed: { sign: '●', means: 'needed and allowed' },
  unneeded: { sign: '○', means: 'allowed, and not needed by what was given' },
});

/** @typedef {{ blocked: number, reported: number, allowed: number }} Counts how often something is needed */

/**
 * @param {Counts} counts
 * @returns {Sign}
 */
const neededSign = counts => {
  const name = counts.blocked > 0 ? 'blocked' : counts.reported > 0 ? 'reported' : 'allowed';
  const { sign, means, mood } = NEEDED[name], count = counts[name];
  const also = name !== 'allowed' && counts.allowed > 0 ? `, and ${counts.allowed} allowed` : '';
  return { sign: `${sign} ${count}`, mood, means: `${count} ${means}${also}` };
};

/**
 * How often each place is needed.
 * @param {PageAnswer['judged']} judged
 * @param {string} origin
 */
const countsOf = (judged, origin) => {
  const counts = /** @type {Map<string, Counts>} */ (new Map());
  for (const { piece, answer: { blocked, items } } of judged) {
    for (const place of placesOf(piece.request, origin)) {
      const sum = counts.get(keyOf(place)) ?? { blocked: 0, reported: 0, allowed: 0 };
      sum[blocked ? 'blocked' : items.length > 0 ? 'reported' : 'allowed'] += 1;
      counts.set(keyOf(place), sum);
    }
  }
  return counts;
};

/**
 * The picture of pages that have the same headers.
 * @param {Program} program
 * @param {{ origin: string, lines: readonly string[], name: string }} given
 * @param {PageAnswer['judged']} judged
 * @returns {Block}
 */
const matrixOf = (program, { origin, lines, name }, judged) => {
  const needed = judged.flatMap(it => placesOf(it.piece.request, origin)), counts = countsOf(judged, origin);
  const urgent = judged.filter(it => it.answer.items.length > 0)
    .flatMap(it => columnOf(it.piece.request, origin) ?? []);
  const axes = axesOf(program, lines, origin, needed, urgent), { columns, hosts } = axes;
  const gives = givenTo(program, { origin, lines }, placesIn(axes));
  return {
    kind: 'matrix', head: say('matrix', name, Math.min(hosts, MOST_HOSTS), hosts), columns,
    signs: [...judged.length === 0 ? [NEEDED.unneeded] : Object.values(NEEDED), NO],
    rows: rowsOf(axes, origin, NO, key => {
      const count = counts.get(key);
      return count === undefined ? gives.has(key) ? NEEDED.unneeded : undefined : neededSign(count);
    }),
  };
};

const MOST_PICTURES = 4;

/**
 * A picture for each header that pages have.
 * @param {Program} program
 * @param {PageAnswer[]} answers
 * @param {{ origin: string, lines: readonly string[] }} [alone] headers without a page
 * @returns {Block[]}
 */
export const pageMatrix = (program, answers, alone) => {
  if (alone?.lines.length === 0) return [];
  if (alone !== undefined) return [matrixOf(program, { ...alone, name: '' }, [])];
  const pages = answers.filter(({ page: { role = 'page', lines, meta } }) =>
    role === 'page' && lines.length + meta.length > 0);
  const groups = groupedBy(pages, ({ page }) => [page.origin, ...page.lines, ...page.meta].join('\n'));
  return groups.slice(0, MOST_PICTURES).map(all => {
    const [{ page: { origin, lines, meta, url, file } }] = all, name = groups.length > 1 ? url || file : '';
    return matrixOf(program, { origin, lines: [...lines, ...meta], name }, all.flatMap(it => it.judged));
  });
};

const BOTH = { sign: '●', means: 'allowed before and now' };
const ADDED = /** @type {Sign} */ ({ sign: '+', mood: 'bad', means: 'allowed now, and blocked before' });
const TAKEN = { sign: '−', means: 'blocked now, and allowed before' };
const NEITHER = { sign: '·', means: 'blocked before and now' };

/**
 * The picture of two headers, before and after.
 * @param {Program} program
 * @param {{ origin: string, old: readonly string[], new: readonly string[] }} given
 * @returns {Block}
 */
export const changeMatrix = (program, { origin, old, new: newer }) => {
  const axes = axesOf(program, [...old, ...newer], origin, [], []), { columns, hosts } = axes;
  const places = placesIn(axes);
  const [before, after] = [old, newer].map(lines => givenTo(program, { origin, lines }, places));
  return {
    kind: 'matrix', head: say('changeMatrix', Math.min(hosts, MOST_HOSTS), hosts), columns,
    signs: [BOTH, ADDED, TAKEN, NEITHER],
    rows: rowsOf(axes, origin, NEITHER, key => {
      const was = before.has(key), is = after.has(key);
      return was && is ? BOTH : is ? ADDED : was ? TAKEN : undefined;
    }),
  };
};
