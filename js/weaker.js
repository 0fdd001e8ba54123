/**
 * Whether new headers are weaker than old ones: directive by directive, with what no proof covers, and what
 * an attacker could do before and after. The engine decides; a yes is checked by it and by the second
 * checker.
 */
import { acceptable, withAccepted } from './accepted.js';
import { audit } from './audit.js';
import { checkProof } from './checker.js';
import { blocksNothing, check, compare, differ } from './calls.js';
import { noncesOf, renamed } from './nonces.js';
import { headersOf, readPolicies } from './policies.js';
import { uncoveredOf } from './uncovered.js';

/**
 * @typedef {import('./calls.js').Program} Program
 * @typedef {import('./calls.js').Headers} Headers
 * @typedef {import('./answers.js').Shown} Shown
 * @typedef {import('./answers.js').Difference} Difference
 * @typedef {import('./audit.js').Audit} Audit
 * @typedef {import('./uncovered.js').Uncovered} Uncovered
 * @typedef {import('./accepted.js').Accepted} Accepted
 * @typedef {import('./accepted.js').Request} Accepting
 * @typedef {import('./nonces.js').Renaming} Renaming
 */

/**
 * What may be new: `allows` are the requests that the engine found to be allowed with it, one for each
 * directive, and `needed` says that something new is left without it.
 * @typedef {Accepted & { allows: Difference[], needed: boolean }} Weighed
 */

/**
 * A directive. `allowed` is a request that the new headers allow and the old ones block, `blocked` one the
 * other way round, and `left` one that is allowed and isn't accepted.
 * @typedef {{ directive: string, change: 'weaker' | 'stricter' | 'both' | 'same', allowed?: Shown,
 *   left?: Shown, blocked?: Shown }} Change
 */

/**
 * A proof that `new` allows nothing but what `old` allows: the headers, with nonces renamed and with what is
 * accepted. `engine` and `second` say whether the two checkers accept it.
 * @typedef {{ proof: string, new: Headers, old: Headers, engine: boolean, second: boolean }} Proved
 */

/**
 * `verdict` is `weaker` where something new isn't accepted, `loosened` where something that no proof covers
 * got looser and isn't accepted, `nothing` where the old headers block nothing, so that a yes means nothing,
 * `unproved` where a checker rejects the proof, and else `not weaker`. `nonces` are how many each side has,
 * and which were renamed.
 * @typedef {{ verdict: 'not weaker' | 'weaker' | 'loosened' | 'nothing' | 'unproved', uncovered: Uncovered[],
 *   directives: Change[], accepted: Weighed[], nonces: { old: number, new: number, renamed: Renaming[] },
 *   proved?: Proved, before: Audit, after: Audit }} Weakening
 */

/** The directives under which checks are made, in the order of a table. */
const DIRECTIVES = [
  'script-src-elem', 'script-src-attr', 'script-src', 'worker-src', 'style-src-elem', 'style-src-attr',
  'object-src', 'frame-src', 'connect-src', 'img-src', 'media-src', 'font-src', 'manifest-src', 'base-uri',
  'form-action', 'frame-ancestors', 'sandbox',
];

/**
 * @param {Record<'looser' | 'stricter' | 'left', Difference[]>} ways
 * @param {string} directive
 * @returns {Change}
 */
const changeOf = (ways, directive) => {
  const [allowed, blocked, left] = [ways.looser, ways.stricter, ways.left]
    .map(all => all.find(it => it.directive === directive));
  const change = allowed && blocked ? 'both' : allowed ? 'weaker' : blocked ? 'stricter' : 'same';
  return { directive, change, ...allowed && { allowed }, ...left && { left }, ...blocked && { blocked } };
};

/** The two headers, and what the engine says of them. */
class Pair {
  /**
   * @param {Program} program
   * @param {{ origin: string, new: Headers, old: Headers }} given
   * @param {readonly Accepted[]} accepted
   */
  constructor(program, given, accepted) {
    this.program = program;
    this.origin = given.origin;
    this.looser = differ(program, given);
    this.before = readPolicies(program, { origin: given.origin, headers: given.old });
    const read = readPolicies(program, { origin: given.origin, headers: given.new });
    const { policies, renamed: names } = renamed(read, this.before);
    this.after = policies;
    this.nonces = { old: noncesOf(this.before).length, new: noncesOf(read).length, renamed: names };
    this.old = given.old;
    this.new = names.length === 0 ? given.new : headersOf(policies);
    this.accepted = accepted;
    this.lines = acceptable(accepted);
    if (names.length > 0) this.looser = this.differs(this.new, this.old);
  }

  /**
   * @param {Headers} newer
   * @param {Headers} old
   */
  differs(newer, old) {
    return differ(this.program, { origin: this.origin, new: newer, old });
  }

  /**
   * The old headers with what these lines accept.
   * @param {Accepting[]} lines
   */
  widened(lines) {
    return lines.length === 0 ? this.old
      : headersOf(withAccepted(this.before, lines, noncesOf(this.after)));
  }

  /**
   * Each accepted line beside what the engine says of it: what the old headers would allow with it, and
   * whether something new and accepted is blocked without it. Two headers together allow what both allow.
   * @param {Uncovered[]} uncovered
   * @returns {Weighed[]}
   */
  weighed(uncovered) {
    const { requests } = this.lines;
    return this.accepted.map(line => {
      const others = requests.filter(it => it !== line);
      if (others.length === requests.length) {
        const needed = uncovered.some(it => it.loosens && it.directive === line.directive);
        return { ...line, allows: [], needed };
      }
      const alone = this.widened(requests.filter(it => it === line));
      const accepted = headersOf(this.after) + this.widened(requests);
      const needed = this.differs(accepted, this.widened(others)).length > 0;
      return { ...line, allows: this.differs(alone, this.old), needed };
    });
  }

  /**
   * A proof that nothing is new but what is accepted, asked of both checkers.
   * @returns {Proved | undefined}
   */
  proved() {
    const pair = { new: this.new, old: this.widened(this.lines.requests) }, { program, origin } = this;
    const answer = compare(program, { origin, ...pair });
    if (answer.weaker) return undefined;
    const question = { origin, ...pair, proof: answer.proof };
    const engine = check(program, question).accepted;
    return { proof: answer.proof, ...pair, engine, second: 'accepted' in checkProof(question) };
  }

  /** @param {Headers} headers */
  audited(headers) {
    return audit(this.program, { origin: this.origin, headers, stops: false });
  }
}

/**
 * Whether new headers are weaker than old ones.
 * @param {Program} program
 * @param {{ origin: string, new: Headers, old: Headers, accepted?: readonly Accepted[] }} given
 * @returns {Weakening}
 */
export const weaker = (program, { accepted = [], ...given }) => {
  const pair = new Pair(program, given, accepted), { looser, before, after, nonces } = pair;
  const { requests, uncovered: outside } = pair.lines;
  const left = requests.length === 0 ? looser : pair.differs(pair.new, pair.widened(requests));
  const stricter = pair.differs(pair.old, pair.new), uncovered = uncoveredOf(before, after, outside);
  const proved = left.length === 0 ? pair.proved() : undefined;
  const isNothing = blocksNothing(program, { origin: given.origin, headers: given.old });
  return {
    verdict: verdictOf(left.length > 0, isNothing, proved, uncovered), uncovered,
    directives: DIRECTIVES.map(it => changeOf({ looser, stricter, left }, it)),
    accepted: pair.weighed(uncovered), nonces, ...proved && { proved },
    before: pair.audited(pair.old), after: pair.audited(pair.new),
  };
};

/**
 * @param {boolean} isWeaker
 * @param {boolean} isNothing
 * @param {Proved | undefined} proved
 * @param {Uncovered[]} uncovered
 * @returns {Weakening['verdict']}
 */
const verdictOf = (isWeaker, isNothing, proved, uncovered) => {
  if (isWeaker) return 'weaker';
  if (uncovered.some(it => it.loosens && it.accepted === undefined)) return 'loosened';
  if (isNothing) return 'nothing';
  return proved?.engine && proved.second ? 'not weaker' : 'unproved';
};
