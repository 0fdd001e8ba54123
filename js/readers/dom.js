// HTML for the readers in a browser: its own parser makes the tree, without running or loading anything.
// It tells neither lines nor attributes that stand twice.

/**
 * A tree of a browser as the walk of html.js sees it.
 * @param {Document} root
 * @returns {import('./html.js').Tree}
 */
export const domTree = root => ({
  root,
  isElement: it => it.nodeType === 1,
  children: it => Array.from(it.childNodes),
  content: it => it.content,
  text: it => Array.from(it.childNodes).filter(one => one.nodeType === 3).map(one => one.data).join(''),
  told: it => ({
    tag: it.localName,
    namespace: it.namespaceURI,
    attributes: Array.from(it.attributes, ({ name, value }) => [name, value]),
    isDoubled: false,
    at: () => undefined,
  }),
});

/** @type {import('./html.js').Parse} */
export const parseHtml = text => domTree(new DOMParser().parseFromString(text, 'text/html'));
