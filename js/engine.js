/**
 * The proved engine, a WebAssembly module that imports nothing: words and files in, the exit code and the
 * output out. This file needs nothing but the platform, so it runs in Node, in browsers and in workers as
 * it stands.
 */

/**
 * A name, and what the file of that name holds.
 * @typedef {readonly [name: string, content: string | Uint8Array]} File
 */

/**
 * The exit code of the program, its output, and that output as a text.
 * @typedef {{ code: number, bytes: Uint8Array, text: string }} Output
 */

/**
 * @typedef {{ csp_page: Function, page_take: (size: bigint) => number, memory: WebAssembly.Memory }} Exports
 */

// How much room the output is given, one after the other where it doesn't suffice.
const ROOMS = [1 << 20, 1 << 24, 1 << 28];
const WRITE_FAULT = 9;
const NO_MEMORY = 10;

/** @param {string | Uint8Array} given */
const encoded = given => typeof given === 'string' ? new TextEncoder().encode(given) : given;

// Writes what a call takes into the memory of an instance. A list of slices is pairs of a place and a
// length, of 8 bytes each.
class Writer {
  /**
   * @param {Exports['page_take']} page_take
   * @param {WebAssembly.Memory} memory
   */
  constructor(page_take, memory) {
    this.page_take = page_take;
    this.memory = memory;
  }

  /** @param {number} size */
  take(size) {
    const at = this.page_take(BigInt(size)) >>> 0;
    if (at === 0) throw new RangeError('no memory');
    return at;
  }

  /** @param {string | Uint8Array} given */
  put(given) {
    const bytes = encoded(given), at = this.take(bytes.length);
    new Uint8Array(this.memory.buffer, at, bytes.length).set(bytes);
    return [at, bytes.length];
  }

  /** @param {readonly (string | Uint8Array)[]} list */
  putAll(list) {
    const slices = list.flatMap(it => this.put(it)), at = this.take(slices.length * 8);
    const view = new DataView(this.memory.buffer);
    slices.forEach((it, n) => view.setBigUint64(at + n * 8, BigInt(it), true));
    return at;
  }
}

/**
 * @param {WebAssembly.Module} module
 * @param {readonly string[]} words
 * @param {readonly File[]} files
 * @param {number} room how many bytes of output there is room for
 */
const callOnce = (module, words, files, room) => {
  const { exports } = new WebAssembly.Instance(module, {});
  const { csp_page, page_take, memory } = /** @type {Exports} */ (/** @type {unknown} */ (exports));
  const writer = new Writer(page_take, memory), contents = files.flat();
  const given = [writer.putAll(words), BigInt(words.length), writer.putAll(contents), BigInt(files.length)];
  const out = writer.take(room), written = writer.take(8);
  const code = csp_page(...given, out, BigInt(room), written);
  const length = Number(new DataView(memory.buffer).getBigUint64(written, true));
  return outputOf(code, new Uint8Array(memory.buffer, out, length).slice());
};

/**
 * @param {number} code
 * @param {Uint8Array} bytes
 * @returns {Output}
 */
export const outputOf = (code, bytes) =>
  ({ code, bytes, text: new TextDecoder('utf-8', { ignoreBOM: true }).decode(bytes) });

export class Engine {
  #module;

  /** @param {WebAssembly.Module} module */
  constructor(module) {
    this.#module = module;
  }

  /**
   * Does what the words say over these files, as the program does. Each call has an instance of its own,
   * so that nothing is kept from one to the next, not even after a trap. Where the memory that the
   * platform gives doesn't hold what is put there, that is code 10 too.
   * @param {readonly string[]} words the words of the command line
   * @param {readonly File[]} [files] the files that the words name
   * @returns {Output}
   */
  call(words, files = []) {
    try {
      let output = callOnce(this.#module, words, files, ROOMS[0]);
      for (const room of ROOMS.slice(1)) {
        if (output.code !== WRITE_FAULT) break;
        output = callOnce(this.#module, words, files, room);
      }
      return output;
    } catch (error) {
      if (!(error instanceof RangeError)) throw error;
      return outputOf(NO_MEMORY, encoded('no memory\n'));
    }
  }
}

/**
 * The engine of this module, or of the module that these bytes are.
 * @param {WebAssembly.Module | BufferSource} module
 * @returns {Promise<Engine>}
 */
export const loadEngine = async module => {
  if (module === undefined) throw new TypeError('give loadEngine the module of engine.wasm, or its bytes');
  return new Engine(module instanceof WebAssembly.Module ? module : await WebAssembly.compile(module));
};
