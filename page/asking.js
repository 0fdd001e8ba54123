/** Asks the worker: one task at a time, with progress; to stop one, its worker is ended and another begun. */

/**
 * Why there is no answer.
 * @typedef {{ file?: string, line?: number, problem: string, hint?: string }} Refused
 */

/** There is no answer, as the engine or a reader says. */
export class NoAnswer extends Error {
  /** @param {Refused} refused */
  constructor(refused) {
    super(refused.problem);
    this.refused = refused;
  }
}

/** The task was stopped. */
export class Stopped extends Error {}

/**
 * The bytes of a text in base64, unpacked.
 * @param {string} text
 */
const unpacked = async text => {
  const { DecompressionStream, Uint8Array: Bytes } = /** @type {any} */ (globalThis);
  const bytes = Bytes.fromBase64?.(text) ?? Uint8Array.from(atob(text), it => it.charCodeAt(0));
  return new Response(new Blob([bytes]).stream().pipeThrough(new DecompressionStream('gzip'))).arrayBuffer();
};

/** @typedef {{ resolve: (it: any) => void, reject: (it: Error) => void, tell: Function }} Waiting */

export class Asking {
  #code;
  #module;
  #worker = /** @type {Promise<Worker> | undefined} */ (undefined);
  #waiting = /** @type {Map<number, Waiting>} */ (new Map());
  #last = 0;

  /**
   * @param {string} code the worker's script
   * @param {string} module the engine, packed, in base64
   */
  constructor(code, module) {
    this.#code = code;
    this.#module = unpacked(module).then(it => WebAssembly.compile(it));
    this.#worker = this.#begun();
  }

  async #begun() {
    const blob = new Blob([this.#code], { type: 'text/javascript' });
    const worker = new Worker(URL.createObjectURL(blob));
    worker.addEventListener('message', ({ data }) => this.#heard(data));
    worker.addEventListener('error', event => this.#failed(event.message));
    worker.postMessage({ module: await this.#module });
    return worker;
  }

  /** @param {{ id: number, done?: number, all?: number, answer?: unknown, refused?: Refused }} message */
  #heard({ id, done, all, answer, refused }) {
    const it = this.#waiting.get(id);
    if (it === undefined) return;
    if (done !== undefined) {
      it.tell(done, all);
      return;
    }
    this.#waiting.delete(id);
    if (refused === undefined) it.resolve(answer);
    else it.reject(new NoAnswer(refused));
  }

  /** @param {string} problem */
  #failed(problem) {
    for (const { reject } of this.#waiting.values()) reject(new NoAnswer({ problem }));
    this.#waiting.clear();
  }

  /**
   * @param {string} task
   * @param {unknown} given
   * @param {(done: number, all: number) => void} [tell]
   * @returns {Promise<any>}
   */
  async ask(task, given, tell = () => {}) {
    const id = this.#last += 1;
    const answer = new Promise((resolve, reject) => this.#waiting.set(id, { resolve, reject, tell }));
    (await this.#worker)?.postMessage({ id, task, given });
    return answer;
  }

  /** Ends what is under way. */
  async stop() {
    const old = this.#worker, waiting = [...this.#waiting.values()];
    this.#waiting.clear();
    this.#worker = this.#begun();
    for (const { reject } of waiting) reject(new Stopped());
    (await old)?.terminate();
  }
}
