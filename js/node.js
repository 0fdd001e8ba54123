/** What Node gets: all of index.js, with a `loadEngine` that finds the module beside this file. */
import { readFile } from 'node:fs/promises';
import { loadEngine as loadGiven } from './engine.js';
import { ownFile } from './own.js';

export * from './index.js';

/**
 * The engine of this module, or of the module that these bytes are; of the package's own `engine.wasm`
 * if none is given.
 * @param {WebAssembly.Module | BufferSource} [module]
 */
export const loadEngine = async module =>
  loadGiven(module ?? await readFile(ownFile('engine.wasm', '../dist/engine.wasm')));
