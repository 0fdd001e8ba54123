// Debian keeps parse5 where `require` looks, and ES modules look in node_modules alone. Where the package
// isn't installed there, this finds Debian's: by NODE_PATH, or else where Debian puts it. It is for
// tests, and for `node --import`; the package itself imports 'parse5' as it is.
import { createRequire, Module, register } from 'node:module';
import { pathToFileURL } from 'node:url';

process.env.NODE_PATH ||= '/usr/share/nodejs';
Module._initPaths();

const hook = `
let url;
export const initialize = given => { url = given; };
export const resolve = async (name, context, next) => {
  try {
    return await next(name, context);
  } catch (error) {
    if (name !== 'parse5') throw error;
    return { url, format: 'commonjs', shortCircuit: true };
  }
};`;
const data = pathToFileURL(createRequire(import.meta.url).resolve('parse5')).href;
register(`data:text/javascript,${encodeURIComponent(hook)}`, { data });
