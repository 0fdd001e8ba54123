/** The fields and files, and what is said of them. */
import { all, by, element, told } from './element.js';
import { say } from './sentences.js';
import { question, raw, state } from './state.js';

/**
 * @typedef {import('./given.js').File} File
 * @typedef {ReturnType<typeof import('./given.js').described>} Described
 * @typedef {Described['headers']} Reading
 */

/**
 * @param {'headers' | 'newer'} id
 * @param {Reading} reading
 */
const showReading = (id, reading) => {
  const hasOwn = id === 'headers' && state.files.some(it => it.kind === 'har');
  const own = hasOwn ? [told('li', say(state[id].trim() === '' ? 'eachOwn' : 'forAll'))] : [];
  const taken = 'fault' in reading ? [element('li', { class: 'bad' }, reading.fault)]
    : reading.read.map(it => element('li', {}, `Line ${it.line}: ${it.said}`));
  by(`${id}-read`).replaceChildren(...own, ...taken);
};

/** @param {File} file */
const addressField = ({ id, url = '' }) => {
  const attributes = { 'data-url': String(id), id: `url-${id}`, spellcheck: 'false', autocomplete: 'off' };
  const input = element('input', attributes);
  /** @type {HTMLInputElement} */ (input).value = url;
  return [element('label', { for: `url-${id}` }, 'Its address'), input];
};

const LONGEST = 50_000;

/** @param {File} file */
const textField = ({ id, name, kind, text }) => {
  if (kind === 'reports' || text.length > LONGEST) return [];
  const label = `The text of ${name}`;
  const attributes = { 'data-text': String(id), 'rows': '8', 'spellcheck': 'false', 'aria-label': label };
  const area = element('textarea', attributes);
  /** @type {HTMLTextAreaElement} */ (area).value = text;
  return [element('details', {}, element('summary', {}, 'Its text'), area)];
};

/**
 * @param {File} file
 * @param {string} said
 */
const fileItem = (file, said) => {
  const label = `Remove ${file.name}`;
  const attributes = { 'type': 'button', 'data-remove': String(file.id), 'aria-label': label };
  const remove = element('button', attributes, 'Remove');
  const head = element('p', {}, element('strong', {}, file.name), `: ${said} `, remove);
  return element('li', {}, head, ...file.kind === 'html' ? addressField(file) : [], ...textField(file));
};

/** Shows the fields that belong to the question at hand. */
export const showFields = () => {
  const name = question(), isPair = ['weaker', 'proof'].includes(name);
  for (const it of all('[data-for]')) it.hidden = !it.dataset.for.split(' ').includes(name);
  by('files-field').hidden ||= state.files.length === 0;
  const isOfAll = ['blocked', 'make', 'reports'].includes(name);
  by('subject-field').hidden = by('subject').options.length < 2 || isOfAll;
  by('headers-label').textContent = isPair ? 'Old headers' : 'Headers of the page';
  by('example').hidden = !state.isExample;
};

/** @param {Described} described */
export const showDescribed = ({ headers, newer, files, subjects }) => {
  showReading('headers', headers);
  showReading('newer', newer);
  by('files').replaceChildren(...state.files.map(file => {
    const found = files.find(it => it.id === file.id);
    return fileItem(file, found === undefined ? '' : 'read' in found ? found.read : found.fault);
  }));
  const at = by('subject').value;
  by('subject').replaceChildren(...subjects.map((it, n) => element('option', { value: String(n) }, it)));
  if (Number(at) < subjects.length) by('subject').value = at || '0';
  showFields();
};

/**
 * Shows what was given, and what each of it was taken for.
 * @param {import('./asking.js').Asking} asking
 */
export const showGiven = async asking => {
  const { revision } = state, found = await asking.ask('describe', raw());
  if (revision === state.revision) showDescribed(found);
  return found;
};
