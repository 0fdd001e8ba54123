// What a page's HTML loads, runs and does, as requests for the engine, each under the `meta` policies
// that stand before it. One walk serves the trees of parse5 (parse5.js) and of a browser (dom.js).
import { namedIn } from './code.js';
import { isHandler } from './handlers.js';
import { ReadingError } from './error.js';
import { fetchesOf } from './elements.js';
import { urlOf } from './urls.js';
import { asciiLower } from './words.js';

/**
 * @typedef {{startLine: number, startCol: number}} At
 * @typedef {object} Told what a tree tells of an element; the line and the column are counted from 1
 * @property {string} tag
 * @property {string} namespace
 * @property {[string, string][]} attributes
 * @property {boolean} isDoubled whether an attribute stands in it twice
 * @property {number} [line]
 * @property {number} [column]
 * @property {(name: string) => At | undefined} at where an attribute stands
 * @property {number} [textLine] where what it holds begins
 * @typedef {object} Tree
 * @property {any} root
 * @property {(node: any) => boolean} isElement
 * @property {(node: any) => any[]} children
 * @property {(node: any) => any} content what a template holds
 * @property {(node: any) => string} text the text nodes of an element
 * @property {(node: any) => Told} told
 * @typedef {(text: string) => Tree} Parse
 * @typedef {Told & {get: (name: string) => string | undefined, text: () => string, parent: Element |
 * null}} Element
 *
 * @typedef {Record<string, any> & {kind: string}} Request a request in the engine's form
 * @typedef {object} Piece
 * @property {Request} request
 * @property {string[]} meta the header lines of the meta policies that it is under
 * @property {string} said what it is, in a person's words
 * @property {number} [line]
 * @property {number} [column]
 * @property {boolean} [possible] whether a browser may do without it, as with the candidates of `srcset`
 * @typedef {{line?: number, said: string}} Said
 * @typedef {object} Page
 * @property {string} url
 * @property {string} origin
 * @property {string[]} lines header lines of the response
 * @property {string[]} meta header lines of the policies of its meta elements
 * @property {Piece[]} pieces
 * @property {Said[]} taken
 * @property {Said[]} left what stands in the page and isn't among the pieces, or is known only in part
 * @property {string[]} unseen what was not looked at
 */

const HTML = 'http://www.w3.org/1999/xhtml', SVG = 'http://www.w3.org/2000/svg';
// JavaScript MIME types (MIME Sniffing)
const JAVASCRIPT = [
  'application/ecmascript', 'application/javascript', 'application/x-ecmascript', 'application/x-javascript',
  'text/ecmascript', 'text/javascript', 'text/javascript1.0', 'text/javascript1.1', 'text/javascript1.2',
  'text/javascript1.3', 'text/javascript1.4', 'text/javascript1.5', 'text/jscript', 'text/livescript',
  'text/x-ecmascript', 'text/x-javascript',
];
const POLICY = 'content-security-policy';
const BASE_ALLOWED = 'relative URLs below <base> are taken to begin there, as they do where base-uri '
  + 'allows it';
const BASE_BLOCKED = '<base> is taken to be blocked: relative URLs begin at the page';

/**
 * Whether a browser that runs scripts does nothing with what stands in an element, which is then not
 * looked at. Some templates become a shadow tree.
 * @param {Told & {get: (name: string) => string | undefined}} element
 */
const hides = ({ tag, namespace, get }) => tag === 'noscript'
  || tag === 'template' && namespace === HTML && !/^(?:open|closed)$/i.test(get('shadowrootmode') ?? '');

/**
 * The elements of a tree in the order of the text. What stands in `noscript` and in templates is left
 * out, but for templates that become a shadow tree.
 * @param {Tree} tree
 * @returns {Generator<Element>}
 */
function* elements(tree) {
  const waiting = /** @type {{node: any, parent: Element | null}[]} */ ([{ node: tree.root, parent: null }]);
  while (waiting.length > 0) {
    const { node, parent } = /** @type {{node: any, parent: Element | null}} */ (waiting.pop());
    let inner = node, element = parent;
    if (tree.isElement(node)) {
      element = elementOf(tree, node, parent);
      yield element;
      if (hides(element)) continue;
      if (element.tag === 'template' && element.namespace === HTML) inner = tree.content(node);
    }
    const children = tree.children(inner);
    for (let at = children.length - 1; at >= 0; at -= 1) {
      waiting.push({ node: children[at], parent: element });
    }
  }
}

/**
 * @param {Tree} tree
 * @param {any} node
 * @param {Element | null} parent
 * @returns {Element}
 */
const elementOf = (tree, node, parent) => {
  const told = tree.told(node), { attributes } = told;
  const get = (/** @type {string} */ name) => attributes.find(it => it[0] === name)?.[1];
  return { ...told, parent, get, text: () => tree.text(node) };
};

/**
 * What a `meta` element does for the policies of a page (HTML, "Content security policy state"), or
 * nothing where it names none.
 * @param {Element} element
 * @returns {{counts: boolean, text: string, said: string, line?: number} | undefined}
 */
const metaOf = element => {
  if (element.tag !== 'meta' || element.namespace !== HTML) return undefined;
  const given = element.get('http-equiv') ?? '', name = asciiLower(given);
  const value = element.get('content') ?? '';
  if (!name.startsWith(POLICY)) return undefined;
  const text = `Meta-Content-Security-Policy: ${value.replace(/\s+/g, ' ').trim()}`, { line } = element;
  const no = (/** @type {string} */ why) =>
    ({ counts: false, text, line, said: `a meta element without effect: ${why}` });
  if (name !== POLICY) return no(`no meta element carries ${given}`);
  if (element.parent?.tag !== 'head') return no('it stands outside of head');
  if (value === '') return no('its content is empty');
  const isWritable = !/[\0-\x08\x0e-\x1f\x7f]/.test(value);
  if (!isWritable) return no('a character stands in it that no policy file can hold');
  return { counts: true, text, line, said: 'read as a meta element' };
};

/**
 * The policies of a page's `meta` elements, those without effect too.
 * @param {Tree} tree
 */
export const metaPolicies = tree => [...elements(tree)].flatMap(it => metaOf(it) ?? []);

/**
 * What a script element would run (HTML, "prepare the script element"): its type, or nothing where it
 * runs nothing.
 * @param {Element} element
 * @returns {'classic' | 'module' | 'importmap' | 'speculationrules' | undefined}
 */
export const scriptType = element => {
  const type = element.get('type'), language = element.get('language');
  const isBare = type === '' || type === undefined && (language === undefined || language === '');
  const given = type?.replace(/^[\t\n\f\r ]+|[\t\n\f\r ]+$/g, '') ?? `text/${language}`;
  const word = isBare ? 'text/javascript' : asciiLower(given);
  if (word === 'module' || word === 'importmap' || word === 'speculationrules') return word;
  if (!JAVASCRIPT.includes(word) || element.get('nomodule') !== undefined) return undefined;
  const target = element.get('for')?.trim(), event = element.get('event')?.trim();
  const isOld = target !== undefined && event !== undefined;
  return isOld && !(/^window$/i.test(target) && /^onload(?:\(\))?$/i.test(event)) ? undefined : 'classic';
};

/**
 * Where an attribute stands, or its element.
 * @param {Element} element
 * @param {string} [attribute]
 */
const placeOf = (element, attribute) => {
  const at = attribute === undefined ? undefined : element.at(attribute);
  return { line: at?.startLine ?? element.line, column: at?.startCol ?? element.column };
};

/**
 * The walk through one page, and through the `srcdoc` of its frames, which take the policies of the page
 * with them.
 */
class Walk {
  /**
   * @param {string} url
   * @param {Parse} parse
   * @param {boolean} isBaseBlocked
   */
  constructor(url, parse, isBaseBlocked) {
    this.isBaseBlocked = isBaseBlocked;
    this.url = url;
    this.base = url;
    this.parse = parse;
    this.runsScripts = true;
    this.isBased = false;
    this.meta = /** @type {string[]} */ ([]);
    this.inside = '';
    this.page = /** @type {Pick<Page, 'pieces' | 'taken' | 'left'>} */ ({ pieces: [], taken: [], left: [] });
    this.late = /** @type {(() => void)[]} */ ([]);
    this.hidden = { noscript: 0, template: 0, sheets: 0 };
    this.needs = /** @type {Set<string>} */ (new Set());
  }

  /** @param {Tree} tree */
  walk(tree) {
    for (const element of elements(tree)) this.visit(element);
    for (const step of this.late) step();
  }

  /** What a sandbox must not take away, once the walk is done. */
  capabilities() {
    for (const name of this.needs) this.add({ kind: 'capability', name }, `the page needs ${name}`, {});
  }

  /**
   * @param {Request} request
   * @param {string} said
   * @param {{line?: number, column?: number, possible?: boolean}} of
   */
  add(request, said, { line, column, possible }) {
    const all = `${this.inside}${said}`, note = line === undefined ? all : `line ${line}: ${all}`;
    const place = line === undefined ? {} : { line, column };
    const rest = possible ? { possible } : {};
    this.page.pieces.push({ request: { ...request, note }, meta: this.meta, said: all, ...place, ...rest });
  }

  /**
   * Tells of what stands there and makes no request, or not this one alone.
   * @param {number | undefined} line
   * @param {string} said
   */
  leave(line, said) {
    this.page.left.push({ line, said: `${this.inside}${said}` });
  }

  /** @param {Element} element */
  visit(element) {
    const { tag, namespace } = element, isSvg = namespace === SVG;
    this.attributes(element);
    const policy = metaOf(element);
    if (policy?.counts) this.meta = [...this.meta, policy.text];
    if (policy) this.page[policy.counts ? 'taken' : 'left'].push({ line: policy.line, said: policy.said });
    if (hides(element)) this.hidden[tag === 'noscript' ? tag : 'template'] += 1;
    if (tag === 'base' && namespace === HTML) this.baseElement(element);
    else if (tag === 'script' && (isSvg || namespace === HTML)) this.script(element);
    else if (tag === 'style' && (isSvg || namespace === HTML)) this.style(element);
    else if (tag === 'form' && namespace === HTML) this.late.push(() => this.form(element, 'action'));
    if (element.get('formaction') !== undefined && namespace === HTML) {
      this.late.push(() => this.form(element, 'formaction'));
    }
    if (tag === 'iframe' && element.get('srcdoc') !== undefined) this.srcdoc(element);
    else for (const it of fetchesOf(element, this.page.left)) this.reference(element, it);
    if (['a', 'area'].includes(tag)) this.link(element);
  }

  /** @param {Element} element */
  attributes(element) {
    const { tag } = element;
    for (const [name, source] of element.attributes) {
      if (name !== 'style' && !name.startsWith('on')) continue;
      const place = placeOf(element, name), { line } = place, said = `${name} of <${tag}>`;
      if (name === 'style') {
        this.add({ kind: 'inline', type: 'style-attribute', source }, said, place);
        this.sheet(source);
      } else if (isHandler(name, tag)) {
        const request = { kind: 'inline', type: 'script-attribute', source };
        if (this.mayRun(said, line)) this.add(request, said, place);
      } else if (/^on[a-z]/.test(name)) {
        this.leave(line, `${said} is no event handler that browsers have: left out`);
      }
    }
  }

  /**
   * Whether scripts run here, which a frame's sandbox can forbid.
   * @param {string} said
   * @param {number} [line]
   */
  mayRun(said, line) {
    if (this.runsScripts) this.needs.add('scripts');
    else this.leave(line, `${said}: left out, since the frame's sandbox lets no script run`);
    return this.runsScripts;
  }

  /**
   * The members of an inline request that tell of its element.
   * @param {Element} element
   */
  static elementMember({ tag, attributes, isDoubled }) {
    return { element: { tag, attributes, ...isDoubled ? { 'duplicate-attribute': true } : {} } };
  }

  /** @param {Element} element */
  script(element) {
    const type = scriptType(element), { line } = element, nonce = element.get('nonce');
    if (type === undefined || !this.mayRun('<script>', line)) return;
    if (element.isDoubled && nonce !== undefined) {
      this.leave(line, 'an attribute of <script> stands twice: Chromium passes over its nonce');
    }
    const names = element.namespace === SVG ? ['href', 'xlink:href'] : ['src'];
    const attribute = names.find(it => element.get(it) !== undefined);
    if (attribute !== undefined) this.scriptFile(element, type, attribute);
    else this.scriptText(element, type);
  }

  /**
   * @param {Element} element
   * @param {string} type
   * @param {string} attribute
   */
  scriptFile(element, type, attribute) {
    if (type === 'importmap' || type === 'speculationrules') {
      this.leave(element.line, `<script type=${type}> with a URL: browsers don't load it`);
      return;
    }
    const url = element.get(attribute) ?? '', said = `${attribute} of <script>`;
    const also = { nonce: element.get('nonce'), integrity: element.get('integrity'), isParsed: true };
    this.reference(element, { destination: 'script', url, attribute, said, ...also });
  }

  /**
   * @param {Element} element
   * @param {string} type
   */
  scriptText(element, type) {
    const source = element.text(), said = type === 'classic' ? '<script>' : `<script type=${type}>`;
    if (source === '') return;
    if (type === 'speculationrules') {
      this.leave(element.line, "'inline-speculation-rules' isn't looked at for speculation rules");
    }
    this.add({ kind: 'inline', type: 'script', source, ...Walk.elementMember(element) }, said, element);
    if (type === 'classic' || type === 'module') this.code(source, element.textLine);
  }

  /**
   * What the text of a script names.
   * @param {string} source
   * @param {number} [begin] the line in which it begins
   */
  code(source, begin) {
    for (const { request, said, line } of namedIn(source)) {
      const place = begin === undefined ? {} : { line: begin + line - 1, column: undefined };
      this.late.push(() => this.add(request, `${said} in a script`, { ...place, possible: true }));
    }
  }

  /** @param {Element} element */
  style(element) {
    if (!/^(?:text\/css)?$/i.test(element.get('type') ?? '')) return;
    const source = element.text();
    this.add({ kind: 'inline', type: 'style', source, ...Walk.elementMember(element) }, '<style>', element);
    this.sheet(source);
  }

  /** @param {string} text style that may name URLs */
  sheet(text) {
    if (/url\(|@import|image-set\(/i.test(text)) this.hidden.sheets += 1;
  }

  /** @param {Element} element */
  baseElement(element) {
    const href = element.get('href');
    if (href === undefined || this.isBased) return;
    const url = this.resolved(href, element.line, this.url);
    if (url === undefined) return;
    this.isBased = true;
    if (/^(?:data|javascript):$/.test(url.protocol)) {
      this.leave(element.line, `<base href> of ${url.protocol} has no effect`);
      return;
    }
    this.add({ kind: 'base', url: url.href }, '<base href>', element);
    this.leave(element.line, this.isBaseBlocked ? BASE_BLOCKED : BASE_ALLOWED);
    if (!this.isBaseBlocked) this.base = url.href;
  }

  /**
   * @param {string} text
   * @param {number} [line]
   * @param {string} [base]
   */
  resolved(text, line, base = this.base) {
    const url = urlOf(text, base);
    if (url === undefined) this.leave(line, `this is no URL, and is left out: "${text}"`);
    return url;
  }

  /**
   * Something that an element names by its URL.
   * @param {Element} element
   * @param {import('./elements.js').Fetch} fetch
   */
  reference(element, { destination, url: text, said, nonce, integrity, isParsed, possible, attribute }) {
    const place = placeOf(element, attribute), { line } = place;
    const url = text.trim() === '' ? undefined : this.resolved(text, line);
    if (url === undefined || url.protocol === 'about:') return;
    if (url.protocol === 'javascript:') {
      const isFrame = ['iframe', 'frame', 'object', 'embed'].includes(destination);
      if (isFrame) this.navigation(url, element, place);
      return;
    }
    const request = {
      kind: 'fetch', destination, url: this.upgraded(url, destination, line),
      ...nonce ? { nonce } : {}, ...integrity ? { integrity } : {},
      ...isParsed ? { 'parser-inserted': true } : {},
    };
    this.add(request, said, { ...place, possible });
  }

  /**
   * The URL that a browser asks for: on a page of https it loads images, sound and video by https, and no
   * rule looks at what a data URL holds.
   * @param {URL} url
   * @param {string} destination
   * @param {number} [line]
   */
  upgraded(url, destination, line) {
    if (url.protocol === 'data:') return 'data:,';
    const isMixed = url.protocol === 'http:' && this.url.startsWith('https:');
    const isAddress = /^[\d.]+$|^\[/.test(url.hostname);
    if (!isMixed || isAddress || !['image', 'audio', 'video'].includes(destination)) return url.href;
    this.leave(line, `${url.href} is taken for https, as browsers load it; a report-only policy sees http`);
    return url.href.replace(/^http:/, 'https:');
  }

  /**
   * @param {URL} url
   * @param {Element} element
   * @param {{line?: number, column?: number}} [place]
   */
  navigation(url, element, place = element) {
    const said = `javascript: URL of <${element.tag}>`;
    const request = { kind: 'inline', type: 'navigation', source: url.href };
    if (this.mayRun(said, place.line)) this.add(request, said, place);
  }

  /** @param {Element} element */
  link(element) {
    const href = element.get('href') ?? element.get('xlink:href'), { tag, line } = element;
    if (element.get('target') === '_blank') this.needs.add('popups');
    if (element.get('download') !== undefined) this.needs.add('downloads');
    this.late.push(() => {
      const url = href === undefined ? undefined : this.resolved(href, line);
      if (url?.protocol === 'javascript:') this.navigation(url, element);
      for (const ping of (element.get('ping') ?? '').split(/\s+/).filter(it => it !== '')) {
        this.reference(element, { destination: '', url: ping, said: `ping of <${tag}>`, possible: true });
      }
    });
  }

  /**
   * @param {Element} element
   * @param {'action' | 'formaction'} name
   */
  form(element, name) {
    if (/^dialog$/i.test(element.get(name === 'action' ? 'method' : 'formmethod') ?? '')) return;
    const action = element.get(name) ?? '';
    const url = action.trim() === '' ? new URL(this.url) : this.resolved(action, element.line);
    if (url === undefined) return;
    this.needs.add('forms');
    if (url.protocol === 'javascript:') this.navigation(url, element);
    else this.add({ kind: 'form', url: url.href }, `${name} of <${element.tag}>`, element);
  }

  /** @param {Element} element a frame whose page stands in its attribute */
  srcdoc(element) {
    const inner = new Walk(this.url, this.parse, this.isBaseBlocked);
    const sandbox = element.get('sandbox'), { line } = element;
    inner.base = this.base;
    inner.meta = this.meta;
    inner.inside = `${this.inside}in srcdoc of <iframe>: `;
    inner.needs = this.needs;
    const allows = sandbox === undefined || /(?:^|\s)allow-scripts(?:\s|$)/i.test(sandbox);
    inner.runsScripts = this.runsScripts && allows;
    inner.walk(this.parse(element.get('srcdoc') ?? ''));
    const { pieces, taken, left } = inner.page, place = { line, column: element.column };
    for (const it of pieces) {
      const request = { ...it.request, note: `line ${line}: ${it.said}` };
      this.page.pieces.push({ ...it, ...place, request });
    }
    this.page.taken.push(...taken.map(({ said }) => ({ line, said: `${inner.inside}${said}` })));
    this.page.left.push(...left.map(({ said }) => ({ line, said })));
    this.hidden.noscript += inner.hidden.noscript;
    this.hidden.template += inner.hidden.template;
    this.hidden.sheets += inner.hidden.sheets;
  }
}

const UNSEEN = [
  'what scripts do as they run (calls, sockets, workers, code and elements that they insert): not looked at',
  'eval, WebAssembly and styles that scripts set, where the text of no script in the page names them: '
    + 'not looked at',
  'what style sheets, frames and modules load in their turn: not looked at',
  'who frames the page: not looked at',
];

/**
 * What was not looked at of what stands in a page.
 * @param {Walk['hidden']} hidden
 * @param {boolean} isRecorded whether a recording tells what style sheets loaded
 */
const hiddenSaid = ({ noscript, template, sheets }, isRecorded) => [
  ...noscript > 0 ? [`what stands in <noscript>, of which there are ${noscript}: not looked at`] : [],
  ...template > 0 ? [`what stands in <template>, of which there are ${template}: not looked at`] : [],
  ...sheets > 0 && !isRecorded
    ? [`what styles in the page load by url() or @import, of which ${sheets} do: not looked at`] : [],
];

const UPGRADES = 'upgrade-insecure-requests, by which browsers load URLs of http by https: not looked at';

/**
 * Reads a page's HTML.
 * @param {string} text
 * @param {object} options
 * @param {string} options.url the address of the page
 * @param {Parse} options.parse what makes a tree of HTML
 * @param {string[]} [options.lines] header lines of the response
 * @param {boolean} [options.isRecorded] whether a recording tells what the page loaded
 * @param {boolean} [options.isBaseBlocked] whether `base` has no effect, since a policy blocks it
 * @returns {Page}
 */
export const readHtml = (text, { url, parse, lines = [], isRecorded = false, isBaseBlocked = false }) => {
  const address = urlOf(url);
  if (address === undefined) {
    const write = 'Write one as https://www.example/';
    throw new ReadingError({ said: 'this is no address of a page', found: url, write });
  }
  const walk = new Walk(url, parse, isBaseBlocked);
  walk.walk(parse(text.replace(/^\uFEFF/, '')));
  walk.capabilities();
  const policies = [...lines, ...walk.meta].join('\n');
  const upgrades = /[:;,]\s*upgrade-insecure-requests\s*(?:[;,]|$)/im.test(policies);
  const unseen = [
    ...isRecorded ? [] : UNSEEN, ...hiddenSaid(walk.hidden, isRecorded), ...upgrades ? [UPGRADES] : [],
  ];
  return { url, origin: address.origin, lines, meta: walk.meta, ...walk.page, unseen };
};
