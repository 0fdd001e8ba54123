/// <reference path="./parse5.d.ts" />
// The parts of Node that the library calls, so that its types are made without those of Node.
declare module 'node:fs' {
  export function existsSync(path: URL): boolean;
}

declare module 'node:fs/promises' {
  export function readFile(path: URL): Promise<Uint8Array>;
}
