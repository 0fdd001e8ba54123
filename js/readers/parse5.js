// HTML for the readers where there is no browser: parse5 makes the tree, and this tells what stands in it.
import { defaultTreeAdapter, parse } from 'parse5';

/** @param {any} attribute its name as a document writes it, and its value */
const pairOf = ({ prefix, name, value }) => [prefix ? `${prefix}:${name}` : name, value];

/** @param {any} node */
const textOf = node => node.nodeName === '#text' ? node.value : '';

/**
 * A tree of parse5 as the walk of html.js sees it.
 * @type {import('./html.js').Parse}
 */
export const parseHtml = text => {
  const doubled = /** @type {number[]} */ ([]);
  const root = parse(text, {
    sourceCodeLocationInfo: true,
    onParseError: ({ code, startOffset }) => code === 'duplicate-attribute' && doubled.push(startOffset),
  });
  const told = (/** @type {any} */ element) => {
    const tag = element.sourceCodeLocation?.startTag ?? element.sourceCodeLocation ?? undefined;
    return {
      tag: element.tagName,
      namespace: element.namespaceURI,
      attributes: element.attrs.map(pairOf),
      isDoubled: tag !== undefined && doubled.some(it => it >= tag.startOffset && it < tag.endOffset),
      textLine: tag?.endLine,
      line: tag?.startLine,
      column: tag?.startCol,
      at: (/** @type {string} */ name) => tag?.attrs?.[name],
    };
  };
  return {
    root,
    isElement: it => defaultTreeAdapter.isElementNode(it),
    children: it => it.childNodes ?? [],
    content: it => it.content,
    text: it => it.childNodes.map(textOf).join(''),
    told,
  };
};
