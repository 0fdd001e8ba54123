/** Where a file of the package stands: beside this one, or where the repository has it. */
import { existsSync } from 'node:fs';

/**
 * @param {string} name
 * @param {string} inRepository its place in the repository, from here
 */
export const ownFile = (name, inRepository) => {
  const beside = new URL(name, import.meta.url);
  return existsSync(beside) ? beside : new URL(inRepository, import.meta.url);
};
