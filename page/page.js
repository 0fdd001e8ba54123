/** The page: what is heard of keys, clicks and drops. What reads and decides runs in the worker. */
import { SNIPPET } from '../js/readers/events.js';
import { ask, busyUntil, changed, copy, copyAnswer, isFresh, showAnswer } from './asked.js';
import { Asking, Stopped } from './asking.js';
import { all, by, element, told } from './element.js';
import { showFields, showGiven } from './fields.js';
import { beginning, linkOf, stateOf } from './link.js';
import { say } from './sentences.js';
import { shown } from './show.js';
import { changeFile, kept, restore, setField, state } from './state.js';
import { clearExample, oneRequest, take, textsOf } from './taking.js';

const asking = new Asking(by('worker').textContent, by('engine').textContent);
const TABS = all('[role=tab]');

/** Asks, and shows the answer where it begins below what is seen. */
const askNow = async () => {
  await ask(asking);
  const { top } = by('answers').getBoundingClientRect();
  if (top > window.innerHeight * 0.8) by('answers').scrollIntoView();
};

/**
 * Does something that a person may stop.
 * @param {Promise<unknown>} work
 */
const stoppable = work => busyUntil(work).catch(error => {
  if (!(error instanceof Stopped)) throw error;
});

/**
 * Takes texts, and asks.
 * @param {import('./taking.js').Given[]} texts
 */
const taken = async texts => {
  await stoppable(take(asking, texts));
  await askNow();
};

const takePaste = () => {
  const text = by('paste').value;
  if (text.trim() === '') return;
  by('paste').value = '';
  taken([{ name: '', text }]);
};

/** @param {string} id */
const select = id => {
  state.tab = id;
  for (const it of TABS) {
    it.setAttribute('aria-selected', String(it.id === id));
    it.tabIndex = it.id === id ? 0 : -1;
  }
  by('panel').setAttribute('aria-labelledby', id);
  showFields();
  showAnswer();
  if (!isFresh()) ask(asking);
};

/** @param {KeyboardEvent} event */
const tabKeys = event => {
  const at = TABS.findIndex(it => it.id === state.tab), last = TABS.length - 1;
  const next = at === last ? 0 : at + 1, before = at === 0 ? last : at - 1;
  const to = { ArrowRight: next, ArrowLeft: before, Home: 0, End: last }[event.key];
  if (to === undefined) return;
  event.preventDefault();
  select(TABS[to].id);
  TABS[to].focus();
};

/**
 * @param {string} name
 * @param {string} text
 */
const save = (name, text) =>
  element('a', { href: URL.createObjectURL(new Blob([text])), download: name }).click();

const makeLink = () => {
  const hash = linkOf(kept()), isWhole = state.files.every(it => it.kind !== 'reports');
  const said = say(hash === undefined ? 'linkTooLong' : isWhole ? 'linked' : 'linkedWithout');
  by('linked').replaceChildren(told('span', said));
  if (hash !== undefined) history.replaceState(null, '', hash);
};

/** @param {number} id */
const remove = id => {
  state.files = state.files.filter(it => it.id !== id);
  state.isExample = false;
  changed();
  stoppable(showGiven(asking));
  ask(asking);
};

/** @param {any} event */
const clicked = ({ target }) => {
  const button = target.closest('button');
  if (button === null) return;
  const { copy: text, save: file, as, remove: id } = button.dataset;
  if (text !== undefined) copy(text, button);
  if (file !== undefined) save(file, button.dataset.text);
  if (as !== undefined) copyAnswer(as, button);
  if (id !== undefined) remove(Number(id));
};

let waiting = 0;

/** Says how the fields are read, once nothing was written for a moment. */
const describeSoon = () => {
  clearTimeout(waiting);
  waiting = window.setTimeout(() => stoppable(showGiven(asking)), 400);
};

/** @param {any} event */
const written = ({ target }) => {
  const { url, text } = target.dataset;
  if (target.id === 'paste' || target.id === 'open' || target.id.startsWith('one-')) return;
  if (['headers', 'newer', 'origin'].includes(target.id)) {
    state.written.add(target.id);
    setField(target.id, target.value);
  }
  const { value } = target;
  if (url !== undefined) target.dataset.url = changeFile(Number(url), { url: value.trim() || undefined });
  if (text !== undefined) target.dataset.text = changeFile(Number(text), { text: value });
  changed();
  if (target.name === 'further') select('more');
  else if (['headers', 'newer'].includes(target.id)) describeSoon();
};

const hearKeys = () => {
  document.addEventListener('keydown', event => {
    if (event.key !== 'Enter' || !(event.ctrlKey || event.metaKey)) return;
    event.preventDefault();
    if (by('paste').value.trim() === '') askNow();
    else takePaste();
  });
  by('questions').addEventListener('keydown', tabKeys);
  for (const it of TABS) it.addEventListener('click', () => select(it.id));
};

const hearDrops = () => {
  const over = (/** @type {boolean} */ is) => document.querySelector('.drop')?.classList.toggle('over', is);
  document.addEventListener('dragover', event => {
    event.preventDefault();
    over(true);
  });
  document.addEventListener('dragleave', () => over(false));
  document.addEventListener('drop', async event => {
    event.preventDefault();
    over(false);
    const transfer = /** @type {DataTransfer} */ (event.dataTransfer), text = transfer.getData('text');
    const { files } = transfer;
    if (files.length > 0) taken(await textsOf(files));
    else if (text !== '') taken([{ name: '', text }]);
  });
};

const hearFields = () => {
  by('given').addEventListener('input', written);
  by('given').addEventListener('submit', (/** @type {Event} */ event) => {
    event.preventDefault();
    askNow();
  });
  by('take').addEventListener('click', takePaste);
  by('paste').addEventListener('paste', () => setTimeout(takePaste));
  by('open').addEventListener('change', async () => {
    const files = await textsOf(by('open').files);
    by('open').value = '';
    taken(files);
  });
  by('one-add').addEventListener('click', () => taken([{ name: '', text: oneRequest() }]));
  by('clear').addEventListener('click', () => {
    clearExample();
    changed();
    stoppable(showGiven(asking));
    ask(asking);
    by('paste').focus();
  });
};

/**
 * Shows what the page's own policy does: the sentences, and the rest folded.
 * @param {string} html the page as it was opened
 */
const judgeItself = async html => {
  const answers = /** @type {any[]} */ (await asking.ask('own', { html })).map(shown);
  const told = answers.flatMap(it => [...it.querySelectorAll(':scope > .says, :scope > aside')]);
  for (const it of answers) it.querySelector('.copies')?.remove();
  const rest = element('details', {}, element('summary', {}, 'Row by row'), ...answers);
  by('own-answer').replaceChildren(...told, rest);
};

/** Shows what the address tells, or else the example. */
const show = () => {
  const from = stateOf(location.hash) ?? beginning();
  restore(from);
  select(TABS.some(it => it.id === from.tab) ? from.tab : 'blocked');
  return stoppable(showGiven(asking));
};

/** The page as it was opened, without the data that its scripts take out of it. */
const ownHtml = () => {
  const copy = /** @type {HTMLElement} */ (document.documentElement.cloneNode(true));
  for (const it of copy.querySelectorAll('script[type]')) it.textContent = '';
  return copy.outerHTML;
};

const begin = async () => {
  const html = ownHtml();
  hearFields();
  hearKeys();
  hearDrops();
  by('snippet').textContent = by('copy-snippet').dataset.copy = SNIPPET;
  document.addEventListener('click', clicked);
  by('stop').addEventListener('click', () => asking.stop());
  by('link').addEventListener('click', makeLink);
  window.addEventListener('hashchange', () => {
    state.revision += 1;
    show();
  });
  const call = (/** @type {unknown} */ words, /** @type {unknown} */ files) => asking.ask('call', { words, files });
  Object.assign(window, { csp: call });
  await show();
  await judgeItself(html);
  document.body.dataset.own = 'judged';
};

begin();
