/** Takes what is pasted, dropped or opened, puts it where it belongs, and says what it was taken for. */
import { by, told } from './element.js';
import { showDescribed } from './fields.js';
import { say } from './sentences.js';
import { addFile, question, raw, setField, state } from './state.js';

/**
 * @typedef {import('./asking.js').Asking} Asking
 * @typedef {import('./given.js').File} File
 */

/**
 * A text to be taken, with the name of its file, or none; or why it can't be.
 * @typedef {{ name: string, text: string, blob?: Blob, fault?: string }} Given
 */

const NAMELESS = {
  har: 'pasted.har', html: 'page.html', requests: 'requests.json', events: 'console.txt',
  reports: 'reports.json',
};

/** @param {Omit<File, 'id'>} file a name that no other file has */
const nameFor = ({ name, kind }) => {
  const base = name === '' ? NAMELESS[kind] : name, names = state.files.map(it => it.name);
  for (let n = 1; ; n += 1) {
    const tried = n === 1 ? base : base.replace(/(\.\w+)?$/, `-${n}$1`);
    if (!names.includes(tried)) return tried;
  }
};

/** The example goes as soon as anything else is given. What a person wrote stays. */
export const clearExample = () => {
  if (!state.isExample) return;
  state.isExample = false;
  state.files = [];
  for (const id of /** @type {const} */ (['headers', 'newer'])) if (!state.written.has(id)) setField(id, '');
};

/**
 * @param {string} name
 * @param {string} text
 */
const takeHeaders = (name, text) => {
  const isNew = ['weaker', 'proof'].includes(question()) && state.headers.trim() !== '';
  setField(isNew ? 'newer' : 'headers', text);
  by('took').append(told('p', say('takenHeaders', name, isNew)));
};

/**
 * @param {Asking} asking
 * @param {Given} given
 */
const takeOne = async (asking, given) => {
  const files = /** @type {File[]} */ ([]);
  for (const it of await asking.ask('take', given)) {
    if (it.kind === 'headers') takeHeaders(given.name, it.text);
    else files.push(addFile({ ...it.file, name: nameFor(it.file) }));
  }
  return files;
};

/**
 * @param {string} name
 * @param {string} fault
 */
const sayNotTaken = (name, fault) => by('took').append(told('p', say('notTaken', name, fault), { class: 'bad' }));

/**
 * Says what files were taken for. What can't be read isn't kept.
 * @param {File[]} files
 * @param {ReturnType<typeof import('./given.js').described>} described
 */
const sayTaken = (files, described) => {
  for (const { id, name } of files) {
    const found = described.files.find(it => it.id === id);
    if (found === undefined) continue;
    if ('read' in found) by('took').append(told('p', say('takenFile', name, found.read)));
    else {
      sayNotTaken(name, found.fault);
      state.files = state.files.filter(it => it.id !== id);
    }
  }
};

/**
 * Takes texts, each with the name of its file, or none.
 * @param {Asking} asking
 * @param {Given[]} all
 */
export const take = async (asking, all) => {
  by('took').replaceChildren();
  clearExample();
  state.revision += 1;
  const files = /** @type {File[]} */ ([]);
  for (const it of all) {
    if (it.fault === undefined) files.push(...await takeOne(asking, it));
    else sayNotTaken(it.name, it.fault);
  }
  const described = await asking.ask('describe', raw());
  sayTaken(files, described);
  showDescribed(described);
};

/**
 * A file as a text. What is packed stays so; a folder can't be read.
 * @param {globalThis.File} blob
 * @returns {Promise<Given>}
 */
const textOfFile = async blob => {
  const { name } = blob;
  try {
    return { name, text: /\.gz$/i.test(name) ? '' : await blob.text(), blob };
  } catch {
    return { name, text: '', fault: 'it can\'t be read. Of a folder, open the files.' };
  }
};

/** @param {Iterable<globalThis.File>} files */
export const textsOf = files => Promise.all([...files].map(textOfFile));

/** The one request that the fields tell. */
export const oneRequest = () => {
  const [kind, type] = by('one-kind').value.split(' '), source = by('one-of').value, url = source.trim();
  const nonce = by('one-nonce').value.trim(), isPlain = ['form', 'base'].includes(kind);
  const request = kind === 'inline' ? { kind, type, source }
    : isPlain ? { kind, url } : { kind: 'fetch', destination: kind, url };
  const parsed = kind === 'script' ? { 'parser-inserted': true } : {};
  return JSON.stringify([{ ...request, ...parsed, ...nonce === '' ? {} : { nonce } }], null, 1);
};
