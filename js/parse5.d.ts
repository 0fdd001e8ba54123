// What the readers call of parse5, whose own types stand beside the package that npm installs.
declare module 'parse5' {
  export function parse(html: string, options: {
    sourceCodeLocationInfo: boolean,
    onParseError(error: { code: string, startOffset: number }): void,
  }): unknown;
  export const defaultTreeAdapter: Record<string, Function>;
}
