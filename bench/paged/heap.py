"""The heap of the page's module, tried on this machine."""

import shutil
import subprocess
import sys
import tempfile

from recorded.trial import TOP, point


def points():
    shutil.which("cc") or sys.exit("bench/page: cc is not on the path: apt-get install gcc")
    with tempfile.TemporaryDirectory() as room:
        source = str(TOP / "bench/paged/heap.c")
        words = ["cc", "-O1", "-fwrapv", f'-DHEAP="{TOP}/page/heap.c"', source, "-o", f"{room}/heap"]
        made = subprocess.run(words, capture_output=True, text=True)
        made.returncode == 0 or sys.exit(made.stderr)
        said = subprocess.run([f"{room}/heap"], capture_output=True, text=True)
    point("blocks of the heap are aligned, apart, and keep what they hold; want of memory is told", "tried\n", said.stdout)
