/** Sources that a policy lacks for what was given, each with how much it would allow. */
import { countOf, judged } from './items.js';
import { needOf } from './needs.js';
import { widerOf } from './policy.js';

/**
 * @typedef {import('./items.js').Item} Item
 * @typedef {import('./policy.js').PolicyList} PolicyList
 * @typedef {object} Addition sources that the policy lacked
 * @property {string} directive
 * @property {string[]} sources
 * @property {number} count how many of the requests and reports need them; for an addition to a present
 * policy, how many the engine allows with them and with nothing else that is new
 * @property {boolean} isTaken whether the proposal has them
 * @property {boolean} isRare whether fewer than one in a hundred reports tell of them, and no page needs
 * them: they may be noise, as of what extensions put into pages, and aren't taken
 * @property {string} example what needs them
 */

/** An addition with the items that need it. */
class Group {
  /**
   * @param {string} directive
   * @param {string[]} sources
   */
  constructor(directive, sources) {
    this.sources = sources;
    this.places = /** @type {Map<number, import('../answers.js').Item>} */ (new Map());
    this.items = /** @type {Item[]} */ ([]);
    this.edits = /** @type {Item[]} */ ([]);
    this.addition = /** @type {Addition} */ ({
      directive, sources, count: 0, isTaken: true, isRare: false, example: '',
    });
  }

  /** @param {PolicyList} list */
  addTo(list) {
    for (const it of this.places.values()) list.add(it, this.sources);
  }
}

/**
 * The sources that a list lacks, and the items that need them.
 * @param {import('../calls.js').Program} program
 * @param {PolicyList} list
 * @param {readonly Item[]} items
 * @param {import('./needs.js').Wish} wish
 */
const groupsOf = async (program, list, items, wish) => {
  const own = list.policies.length, groups = /** @type {Map<string, Group>} */ (new Map());
  for (const { item, items: by } of judged(program, list.lines, items)) {
    const places = by.filter(it => it.policy < own);
    if (places.length === 0) continue;
    const { sources, isEdit } = await needOf(item, places[0].effective, wish);
    if (sources.length === 0) continue;
    const directive = widerOf(places[0].effective), name = [directive, ...sources].join(' ');
    const group = groups.get(name) ?? new Group(directive, sources);
    groups.set(name, group);
    group.items.push(item);
    if (isEdit) group.edits.push(item);
    for (const it of places) group.places.set(it.policy, it);
  }
  return [...groups.values()];
};

/**
 * The additions to a list, the greatest first.
 * @param {import('../calls.js').Program} program
 * @param {PolicyList} list
 * @param {readonly Item[]} items
 * @param {import('./needs.js').Wish} wish
 */
export const additionsOf = async (program, list, items, wish) => {
  const own = list.policies.length, groups = await groupsOf(program, list, items, wish);
  const reports = countOf(items.filter(it => it.isReport));
  for (const it of groups) {
    const allowed = wish.form === 'addition' ? allowedBy(program, list, it, own) : it.items;
    const count = countOf(allowed), isRare = it.items.every(of => of.isReport) && count * 100 < reports;
    const [{ said: example }] = it.items;
    Object.assign(it.addition, { count, isRare, isTaken: count > 0 && !isRare, example });
  }
  return groups.filter(it => it.addition.count > 0).sort((a, b) => b.addition.count - a.addition.count);
};

/**
 * The items that a list allows once a group was added to it, and nothing else.
 * @param {import('../calls.js').Program} program
 * @param {PolicyList} list
 * @param {Group} group
 * @param {number} own
 */
const allowedBy = (program, list, group, own) => {
  const trial = list.copy();
  group.addTo(trial);
  return judged(program, trial.lines, group.items).filter(({ items }) => items.every(it => it.policy >= own))
    .map(it => it.item);
};
