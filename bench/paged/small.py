"""Little memory is status 10 and no trap."""

import json
import subprocess
import sys
import tempfile
from pathlib import Path

from recorded.trial import TOP, point

SCRIPT = """import { readFileSync } from 'node:fs';
const code = readFileSync(process.argv[2], 'utf8').replace(/const ROOMS = .*;/, 'const ROOMS = [1 << 16];');
const { loadEngine } = await import('data:text/javascript,' + encodeURIComponent(code));
const engine = await loadEngine(readFileSync(process.argv[3])), seen = {};
const request = JSON.stringify([{ kind: 'fetch', destination: 'image', url: 'https://b.example/' }]);
for (let n = 0; n < 60; n++) {
  const hosts = Array.from({ length: Math.min(1000, 1 + n * n) }, (_, i) => `h${i}.example`).join(' ');
  const policy = `Content-Security-Policy: img-src ${hosts}\\nX: ${'x'.repeat(n * n * 400)}\\n`;
  for (const [words, files] of [[['judge', 'null', 'p', 'r'], [['p', policy], ['r', request]]],
      [['compare', 'null', 'p', 'q'], [['p', policy], ['q', policy]]]]) {
    let status; try { status = engine.call(words, files).code; } catch (error) { status = String(error); }
    seen[status] = (seen[status] ?? 0) + 1;
  }
}
console.log(JSON.stringify(seen));
"""


def points(module=None):
    module or sys.exit("bench/page small MODULE: make one by MEMORY=4194304 page/build MODULE")
    with tempfile.TemporaryDirectory() as room:
        Path(room, "run.mjs").write_text(SCRIPT)
        words = ["node", f"{room}/run.mjs", str(TOP / "js/engine.js"), module]
        seen = json.loads(subprocess.run(words, capture_output=True, check=True).stdout)
    print(f"runs by status: {seen}")
    point("there are runs that the memory doesn't hold, and they end with 10", True, seen.get("10", 0) > 0)
    others = sorted(set(seen) - {"0", "1", "9", "10"})
    point("no run ends otherwise than with its answer, with 10, or with a text too long", [], others)
