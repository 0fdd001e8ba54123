/** Findings for build servers: SARIF 2.1.0, and the annotations of GitHub. */

/** @typedef {import('./words.js').Finding} Finding */

/**
 * @param {Finding[]} findings
 * @param {string} version
 */
export const sarifOf = (findings, version) => ({
  $schema: 'https://json.schemastore.org/sarif-2.1.0.json',
  version: '2.1.0',
  runs: [{
    tool: { driver: {
      name: 'guidecerise', version, rules: [...new Set(findings.map(it => it.rule))].map(id => ({ id })),
    } },
    results: findings.map(({ rule, level, message, file, line }) => ({
      ruleId: rule, level, message: { text: message },
      locations: [{ physicalLocation: {
        artifactLocation: { uri: encodeURI(file.replaceAll('\\', '/')) }, region: { startLine: line },
      } }],
    })),
  }],
});

/** @param {string} text */
const escaped = text => text.replaceAll('%', '%25').replaceAll('\r', '%0D').replaceAll('\n', '%0A');

/** @param {string} text */
const escapedProperty = text => escaped(text).replaceAll(':', '%3A').replaceAll(',', '%2C');

/** @param {Finding} finding */
export const annotationOf = ({ rule, level, message, file, line }) =>
  `::${level} file=${escapedProperty(file)},line=${line},title=${escapedProperty(rule)}::`
    + escaped(message);
