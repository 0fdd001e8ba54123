"""What the points stand on: running commands, the program's answers, and the lines that are printed."""

import os
import shutil
import subprocess
from pathlib import Path

TOP = Path(__file__).resolve().parents[2]
TOOLS = TOP / "tools"
PROGRAM = os.environ.get("CSP") or shutil.which("csp") or subprocess.run(
    [TOP / "csp", "--program"], stdout=subprocess.PIPE, text=True).stdout.strip()
GUIDECERISE = ["node", "--import", str(TOP / "js/test/debian.js"), str(TOP / "js/bin/guidecerise.js")]
ORIGIN = "https://a.example"
ENVIRONMENT = {**os.environ, "CSP": PROGRAM}
counts = {"passed": 0, "failed": 0}


def point(name, expected, came):
    """Prints whether what came is what is expected."""
    if expected == came:
        counts["passed"] += 1
        print("ok:", name)
    else:
        counts["failed"] += 1
        print(f"FAILED: {name}\n    expected {expected!r}\n    came     {came!r}")


def run(*words, given=""):
    """The status, the standard output and the standard error of a command."""
    done = subprocess.run(words, input=given, capture_output=True, encoding="utf-8", env=ENVIRONMENT)
    return done.returncode, done.stdout, done.stderr


def guidecerise(*words, given=""):
    """The same of the command in js/, with Debian's parse5 where none is installed."""
    return run(*GUIDECERISE, *words, given=given)


def fetch(destination, *urls, **members):
    """A description of a fetch."""
    where = {"url": urls[0]} if len(urls) == 1 else {"urls": list(urls)}
    return {"kind": "fetch", "destination": destination, **where, **members}
