/** What stands in the page: the question, the fields and the files. */
import { all, by } from './element.js';

/** @typedef {import('./given.js').File} File */

export const state = {
  tab: 'blocked', headers: '', newer: '', origin: '', isExample: false, revision: 0, last: 0,
  files: /** @type {File[]} */ ([]),
  written: /** @type {Set<string>} the fields in which a person wrote */ (new Set()),
};

/** @param {string} name */
const chosen = name => all(`input[name=${name}]`).find(it => it.checked).value;

/** The question that is asked. */
export const question = () => state.tab === 'more' ? chosen('further') : state.tab;

/** What the worker is given of it. */
export const raw = () => {
  const { headers, newer, origin, files } = state;
  return { headers, newer, origin, files };
};

export const choices = () => ({
  form: chosen('form'), unsafeHashes: by('hashes').checked, proof: by('proof').value,
  required: by('required').value, embedder: by('embedder').value.trim(),
  subject: Number(by('subject').value || 0),
});

/**
 * @param {'headers' | 'newer' | 'origin'} id
 * @param {string} text
 */
export const setField = (id, text) => {
  state[id] = text;
  by(id).value = text;
};

/** @param {Omit<File, 'id'>} file */
export const addFile = file => {
  const added = { ...file, id: state.last += 1 };
  state.files = [...state.files, added];
  return added;
};

/**
 * Another text or address makes it another file.
 * @param {number} id
 * @param {Partial<File>} change
 */
export const changeFile = (id, change) => {
  state.files = state.files.map(it => it.id === id ? { ...it, ...change, id: state.last += 1 } : it);
  return state.last;
};

/** What a link keeps of it. */
export const kept = () => {
  const { tab, isExample } = state, files = state.files.filter(it => it.kind !== 'reports');
  return {
    tab, further: chosen('further'), isExample, ...raw(), ...choices(),
    files: files.map(({ name, kind, text, url }) => ({ name, kind, text, url })),
  };
};

/** @param {Record<string, any>} from what a link kept */
export const restore = from => {
  setField('origin', String(from.origin ?? 'https://www.example'));
  setField('headers', String(from.headers ?? ''));
  setField('newer', String(from.newer ?? ''));
  state.isExample = from.isExample === true;
  state.written.clear();
  state.files = [];
  for (const it of Array.isArray(from.files) ? from.files : []) addFile(it);
  for (const id of ['proof', 'required', 'embedder']) by(id).value = String(from[id] ?? by(id).defaultValue);
  for (const name of ['further', 'form']) {
    for (const it of all(`input[name=${name}]`)) {
      it.checked = from[name] === undefined ? it.defaultChecked : it.value === from[name];
    }
  }
  by('hashes').checked = from.unsafeHashes === true;
};
