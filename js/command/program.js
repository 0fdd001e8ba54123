/** Who answers: the engine, or the program that GUIDECERISE_PROGRAM names, and how long it takes. */
import { spawnSync } from 'node:child_process';
import { mkdtempSync, rmSync, writeFileSync } from 'node:fs';
import { tmpdir } from 'node:os';
import { join, resolve } from 'node:path';
import { Worker } from 'node:worker_threads';
import { outputOf } from '../engine.js';
import { loadEngine } from '../node.js';
import { Refusal } from '../refusal.js';

const MOST_OUTPUT = 2 ** 30;
const FAULT = 70;

/** A program of this machine, which is called as an engine is. */
class Native {
  /** @param {string} path */
  constructor(path) {
    this.path = path.includes('/') ? resolve(path) : path;
  }

  /**
   * @param {readonly string[]} words
   * @param {readonly import('../engine.js').File[]} files
   */
  call(words, files) {
    const cwd = mkdtempSync(join(tmpdir(), 'guidecerise-'));
    try {
      for (const [name, content] of files) writeFileSync(join(cwd, name), content);
      const { status, signal, error, stdout } = spawnSync(this.path, words, { cwd, maxBuffer: MOST_OUTPUT });
      if (status !== null) return outputOf(status, stdout);
      const problem = `${this.path}: it can't be run (${error?.message ?? signal})`;
      throw new Refusal(FAULT, { problem, hint: 'GUIDECERISE_PROGRAM names it.' });
    } finally {
      rmSync(cwd, { recursive: true });
    }
  }
}

/** @param {string | undefined} path */
export const programOf = async path => path ? new Native(path) : loadEngine();

const PROGRESS = `
  const { writeSync } = require('node:fs');
  let seconds = 0;
  setInterval(() => writeSync(2, '\\rguidecerise: at work for ' + ++seconds + ' s ..'), 1000);
`;

/**
 * Does some work, and tells after each second on a terminal that it goes on. The engine keeps its own
 * thread busy, so another one tells it.
 * @template T
 * @param {() => T | Promise<T>} work
 * @returns {Promise<T>}
 */
export const withProgress = async work => {
  if (!process.stderr.isTTY) return work();
  const teller = new Worker(PROGRESS, { eval: true });
  try {
    return await work();
  } finally {
    teller.terminate();
    process.stderr.write('\r\x1b[K');
  }
};
