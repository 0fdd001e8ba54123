#!/usr/bin/env node
// An exit code of Node's own would look like an answer, so each fault has one that no answer has.
const FAULT = 70;
const WRITE_FAULT = 9;

process.stdout.on('error', () => process.exit(WRITE_FAULT));
try {
  const { main } = await import('../command.js');
  process.exitCode = await main(process.argv.slice(2), process.env);
} catch (error) {
  console.error(error);
  process.exitCode = FAULT;
}
