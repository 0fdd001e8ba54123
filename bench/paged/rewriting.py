"""page/undone.py takes what the rewriting steps write, and refuses it once a line of it is another."""

import subprocess
import sys
import tempfile
from pathlib import Path

from recorded.trial import TOP, point

GIVEN = """target datalayout = "e-p:64:64"
target triple = "x86_64-unknown-linux-gnu"
@text = private unnamed_addr constant <{ ptr, [8 x i8] }> <{ ptr @"a::ptr", [8 x i8] c"ptr 1234" }>, align 8
@pair = constant <{ ptr, ptr }> <{ ptr getelementptr (i8, ptr @text, i64 4), ptr null }>, align 8
declare void @rattle_dealloc(ptr)
define i32 @named(ptr %place, i64 %n) #0 {
  %value = load ptr, ptr %place, align 8, !noundef !0
  store ptr %value, ptr %place, align 8
  store ptr @text, ptr %place, align 4
  %both = load { i64, ptr }, ptr %place, align 8
  %two = load { ptr, ptr }, ptr %place, align 8
  %numbers = load { i64, i64 }, ptr %place, align 8
  %slot = alloca ptr, align 8
  %address = ptrtoaddr ptr %place to i64
  call void @rattle_dealloc(ptr %value)
  ret i32 0
}
attributes #0 = { nounwind "probe-stack"="inline-asm" "target-cpu"="x86-64" }
"""
# What a wrong step could have written: a text of the output, and what stands there in its place
WRONG = {
    "retarget": [
        ("ret i32 0", "ret i32 1"),
        ("nounwind", "nounwind readnone"),
        ("  store ptr @text, ptr %place, align 4\n", ""),
        ("align 8, !noundef", "align 4, !noundef"),
    ],
    "to32": [
        ("ret i32 0", "ret i32 1"),
        ("ptr null, [4 x i8] zeroinitializer", "ptr null"),
        ("store i64 %w7, ptr %place, align 8", "store i64 %w7, ptr %value, align 8"),
        ("store i64 %w8, ptr %place, align 4", "store i64 %w8, ptr %place, align 8"),
        ("getelementptr i8, ptr %place, i64 8", "getelementptr i8, ptr %place, i64 4"),
        ("insertvalue { i64, ptr } poison, i64 %p9.0, 0", "insertvalue { i64, ptr } poison, i64 %p9.0, 1"),
        ("%slot = alloca i64", "%slot = alloca ptr"),
        ("  %value = inttoptr", "  %other = inttoptr"),
        ("load { i64, i64 }", "load { i64, i32 }"),
    ],
}


def step(name, *words):
    return subprocess.run([sys.executable, str(TOP / "page" / name), *words], capture_output=True, text=True).returncode


def points():
    with tempfile.TemporaryDirectory() as room:
        files = [f"{room}/{it}.ll" for it in ("given", "retarget", "to32", "wrong")]
        Path(files[0]).write_text(GIVEN)
        for name, given, made, more in (("retarget", files[0], files[1], ["named"]), ("to32", files[1], files[2], [])):
            made_so = step(f"{name}.py", given, made, *more), step("undone.py", name, given, made, *more)
            point(f"{name}: what it writes is taken back to what it was given", (0, 0), made_so)
            text = Path(made).read_text()
            for right, wrong in WRONG[name]:
                Path(files[3]).write_text(text.replace(right, wrong, 1))
                refused = right in text and step("undone.py", name, given, files[3], *more) != 0
                point(f"{name}: refused with {wrong.strip() or 'a line left out'!r}", True, refused)
