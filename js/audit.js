/**
 * What an attacker could do who writes markup into a page. The engine decides about each thing that is tried.
 */
import { why } from './calls.js';
import { knownOf } from './known.js';
import { headersOf, readPolicies, valuesOf, withDirective } from './policies.js';
import { questionsOf } from './questions.js';

/**
 * @typedef {import('./calls.js').Program} Program
 * @typedef {import('./calls.js').Request} Request
 * @typedef {import('./answers.js').Reason} Reason
 * @typedef {import('./answers.js').Ground} Ground
 * @typedef {import('./policies.js').Policy} Policy
 * @typedef {import('./questions.js').Question} Question
 * @typedef {import('./known.js').Known} Known
 */

/** @typedef {'yes' | 'no' | 'reported'} Can a yes that a report-only policy would tell of is `reported` */

/**
 * A change with which the answer is no, as the engine said when it was asked again: what to do, in which
 * policy (null for a new one) and directive (null for the whole policy), and all headers so changed.
 * @typedef {{ policy: number | null, directive: string | null, text: string, headers: string }} Stop
 */

/**
 * Something that is tried: an `action`, `from` or to some place. `sentence` is the answer and `because` its
 * ground, `request` the one that decided, `policies` what each policy says of it, `runs` whether it would run
 * what the attacker wrote, `with` what it takes besides markup.
 * @typedef {{ id: string, group: import('./questions.js').Group, action: string, from?: string,
 *   question: string, can: Can, sentence: string, because: string, request: Request, policies: Ground[],
 *   stops: Stop[], runs: boolean, with?: string }} Row
 */

/**
 * `blocksNothing` says that no row is a no, since no policy is enforced that decides any. `known` is what is
 * known of such policies and isn't proved.
 * @typedef {{ rows: Row[], blocksNothing: boolean, known: Known[], notCovered: string[] }} Audit
 */

/** What no row says anything of. */
const NOT_COVERED = [
  'what the page\'s own scripts do with markup that they find: DOM-based injection, libraries that run'
    + ' templates, and what Trusted Types would keep them from',
  'where a click, a form\'s text or a refresh leads: no directive decides about links',
  'what frames may do: each has its own policy',
  'mixed content, and other rules of browsers beside the policy',
  'scripts and workers that a script adds where a browser departs from the standard\'s text',
  'other responses of the same origin: one without a policy gives an attacker all of the page',
];

/** Asks the engine about all requests at once, and each headers once. */
class Asked {
  /** @type {Map<string, Reason[]>} */
  #answers = new Map();
  #program;
  #origin;
  #requests;

  /**
   * @param {Program} program
   * @param {string} origin
   * @param {Question[]} questions
   */
  constructor(program, origin, questions) {
    this.#program = program;
    this.#origin = origin;
    this.#requests = questions.flatMap(it => [...it.tries, ...it.needs]);
  }

  /**
   * @param {string} headers
   * @param {Question} question
   * @returns {{ can: Can, request: Request, reason: Reason }}
   */
  about(headers, question) {
    const reasons = this.#answers.get(headers)
      ?? why(this.#program, { origin: this.#origin, headers, requests: this.#requests });
    this.#answers.set(headers, reasons);
    /** @param {Request} request */
    const answerOf = request => {
      const reason = reasons[this.#requests.indexOf(request)];
      return { request, reason, can: canOf(reason) };
    };
    const needed = question.needs.map(answerOf).find(it => it.can === 'no');
    const tried = question.tries.map(answerOf).sort((a, b) => ORDER.indexOf(a.can) - ORDER.indexOf(b.can));
    return tried[0].can === 'no' ? tried[0] : needed ?? tried[0];
  }
}

/** @type {Can[]} */
const ORDER = ['yes', 'reported', 'no'];

/**
 * @param {Reason} reason
 * @returns {Can}
 */
const canOf = ({ blocked, items }) => blocked ? 'no' : items.length > 0 ? 'reported' : 'yes';

/** @param {Policy | undefined} policy */
const isEnforced = policy => policy?.disposition === 'enforce';

/** @param {string} text */
const upper = text => text[0].toUpperCase() + text.slice(1);

/**
 * @param {Reason} reason
 * @param {readonly Policy[]} policies
 */
const becauseOf = ({ blocked, items, policies: grounds }, policies) => {
  const enforced = items.filter(it => it.disposition === 'enforce').map(it => it.governing);
  if (blocked) return `${[...new Set(enforced)].join(' and ')} blocks it`;
  const allowing = grounds.filter(it => it.directive !== '-' && isEnforced(policies[it.policy]));
  const by = allowing.map(it => `${it.directive}${it.token === undefined ? '' : ` ${it.token}`}`);
  const told = items.length > 0 ? ', and a policy that only reports would tell of it' : '';
  if (by.length === 0) return `no enforced directive decides about it${told}`;
  return `${[...new Set(by)].join(' and ')} allows it${told}`;
};

/** @typedef {Omit<Stop, 'headers'> & { policies: Policy[] }} Change */

/** Looks for the changes of a policy with which the engine answers no. */
class Stopping {
  #asked;
  #policies;
  #question;

  /**
   * @param {Asked} asked
   * @param {Policy[]} policies
   * @param {Question} question
   */
  constructor(asked, policies, question) {
    this.#asked = asked;
    this.#policies = policies;
    this.#question = question;
  }

  /** @returns {Stop[]} */
  all() {
    const enforced = [...this.#policies.keys()].filter(n => isEnforced(this.#policies[n]));
    const ways = enforced.flatMap(n => this.#ofPolicy(n)), reports = this.#enforcing();
    const least = Math.min(...ways.map(it => it.size));
    const news = enforced.length === 0 && reports.length === 0 ? this.#added(null) : [];
    const found = [...reports, ...ways.filter(it => it.size === least).map(it => it.change), ...news];
    return found.map(({ policies, ...it }) => ({ ...it, headers: headersOf(policies) }));
  }

  /** @param {readonly Policy[]} policies */
  #about(policies) {
    return this.#asked.about(headersOf(policies), this.#question);
  }

  /** @param {Change} change */
  #stops({ policies }) {
    return this.#about(policies).can === 'no';
  }

  /**
   * @param {number} at
   * @param {Policy} policy
   */
  #with(at, policy) {
    return this.#policies.map((it, n) => n === at ? policy : it);
  }

  /** A policy that only reports, enforced. */
  #enforcing() {
    return this.#policies.flatMap((it, n) => {
      if (isEnforced(it)) return [];
      /** @type {Policy} */
      const policy = { ...it, disposition: 'enforce' };
      const text = 'enforce this policy';
      const change = { policy: n, directive: null, text, policies: this.#with(n, policy) };
      return this.#stops(change) ? [change] : [];
    }).slice(0, 1);
  }

  /**
   * A directive where none decides: 'self' where that suffices.
   * @param {number | null} at
   * @returns {Change[]}
   */
  #added(at) {
    const directive = this.#question.starts;
    /** @type {Policy} */
    const bare = at === null ? { disposition: 'enforce', isMeta: false, directives: [] } : this.#policies[at];
    for (const word of ["'self'", "'none'"]) {
      const policy = withDirective(bare, directive, [word]);
      const policies = at === null ? [...this.#policies, policy] : this.#with(at, policy);
      const change = { policy: at, directive, text: `add ${directive} ${word}`, policies };
      if (this.#stops(change)) return [change];
    }
    return [];
  }

  /**
   * The words that allow it taken out, one after the other, and how many they are. Where a directive decides
   * for want of another, that other one is added.
   * @param {number} at
   * @returns {{ change: Change, size: number }[]}
   */
  #ofPolicy(at) {
    const first = this.#about(this.#policies).reason.policies.find(it => it.policy === at);
    if (first === undefined) return [];
    if (first.directive === '-') return this.#added(at).map(change => ({ change, size: 1 }));
    const directive = first.directive === 'default-src' ? this.#question.starts : first.directive;
    const isAdded = directive !== first.directive, taken = /** @type {string[]} */ ([]);
    let values = valuesOf(this.#policies[at], first.directive);
    for (let ground = first; ground.token !== undefined;) {
      const { token } = ground;
      taken.push(token);
      values = values.filter(it => it !== token);
      const policies = this.#with(at, withDirective(this.#policies[at], directive, values));
      const text = isAdded ? `add ${[directive, ...values.length === 0 ? ["'none'"] : values].join(' ')}`
        : `take ${taken.join(' and ')} out of ${directive}`;
      const change = { policy: at, directive, text, policies };
      if (this.#stops(change)) return [{ change, size: taken.length }, ...this.#nonced(at, directive, taken)];
      const next = this.#about(policies).reason.policies.find(it => it.policy === at);
      if (next === undefined || next.token === token) break;
      ground = next;
    }
    return [];
  }

  /**
   * A nonce, beside which 'unsafe-inline' is void.
   * @param {number} at
   * @param {string} directive
   * @param {string[]} taken
   */
  #nonced(at, directive, taken) {
    if (taken.every(it => it.toLowerCase() !== "'unsafe-inline'")) return [];
    const policy = this.#policies[at], nonce = "'nonce-RANDOM'";
    const values = [...valuesOf(policy, policy.directives.some(it => it.name === directive) ? directive
      : 'default-src'), nonce];
    const policies = this.#with(at, withDirective(policy, directive, values));
    const text = `add ${nonce}, new in each response, to ${directive}`;
    const change = { policy: at, directive, text, policies };
    return this.#stops(change) ? [{ change, size: taken.length }] : [];
  }
}

/**
 * @param {Asked} asked
 * @param {Policy[]} policies
 * @param {Question} question
 * @param {boolean} withStops
 * @returns {Row}
 */
const rowOf = (asked, policies, question, withStops) => {
  const { id, group, subject, action, from, runs } = question;
  const what = from === undefined ? action : `${action} ${from}`;
  const { can, request, reason } = asked.about(headersOf(policies), question);
  const said = `${upper(subject)} ${can === 'no' ? "couldn't" : 'could'} ${what}`;
  const because = becauseOf(reason, policies);
  return {
    id, group, action, ...from && { from }, question: `Could ${subject} ${what}?`, can,
    sentence: `${said}: ${because}.`, because, request, policies: reason.policies, runs,
    ...question.with && { with: question.with },
    stops: withStops && can !== 'no' ? new Stopping(asked, policies, question).all() : [],
  };
};

/**
 * What an attacker could do who writes markup into the page, knows no nonce, and has no code of theirs among
 * the policies' hashes.
 * @param {Program} program
 * @param {{ origin: string, headers: import('./calls.js').Headers, stops?: boolean }} given `stops` false
 *   leaves out what would stop each
 * @returns {Audit}
 */
export const audit = (program, { origin, headers, stops = true }) => {
  why(program, { origin, headers, requests: [] });
  const policies = readPolicies(program, { origin, headers });
  const questions = questionsOf(program, { origin, policies });
  const asked = new Asked(program, origin, questions);
  const rows = questions.map(it => rowOf(asked, policies, it, stops));
  return {
    rows, blocksNothing: rows.every(it => it.can !== 'no'), known: knownOf(policies, rows),
    notCovered: NOT_COVERED,
  };
};
