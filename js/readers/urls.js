// URLs as the readers use them.

/**
 * The URL that a text is, or names in a page of that base, or nothing where it is none.
 * @param {string} text
 * @param {string} [base]
 */
export const urlOf = (text, base) => {
  try {
    return new URL(text, base);
  } catch {
    return undefined;
  }
};
