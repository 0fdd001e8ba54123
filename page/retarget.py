#!/usr/bin/env python3
"""Turns the LLVM module that the kit makes of a static library for x86-64 into one for wasm64.

usage: retarget.py IN.ll OUT.ll EXPORT..
It stops at what is of x86-64 alone, and at a function from outside that page/heap.c and the linker's own helpers lack.
"""

import re
import sys

LAYOUT = "e-m:e-p:64:64-p10:8:8-p20:8:8-i64:64-i128:128-n32:64-S128-ni:1:10:20"
FROM_OUTSIDE = {"rattle_alloc", "rattle_realloc", "rattle_dealloc"}
X86 = re.compile(r' ?"(?:probe-stack|stack-probe-size|target-cpu|target-features|tune-cpu)"="[^"]*"')
# The linker's helpers lack three functions of C, so no loop may be made a call of one of them.
PLAIN = '"no-builtin-bcmp" "no-builtin-memcmp" "no-builtin-strlen"'


def refused(text):
    """What can't be had for wasm64."""
    outside = set(re.findall(r'(?m)^declare [^@\n]*@"?([^"(\n]+)"?\(', text))
    found = set(re.findall(r"llvm\.x86\.[\w.]+|module asm|\basm (?:sideeffect )?\"", text))
    return found | {it for it in outside if it not in FROM_OUTSIDE and not it.startswith("llvm.")}


def exported(text, name):
    """The module with the function of that name as an export."""
    # x86-64 leaves the upper bits of what is narrower than a word undefined, and a host of WebAssembly reads them.
    head = re.search(rf"(?m)^define ([^@\n]*)@{name}\(([^\n]*)\) #", text)
    if not head or re.search(r"\bi(1|8|16)\b|\{|byval|sret", head[1] + head[2]):
        sys.exit(f"retarget: {name} is no export, or takes or gives what is narrower than a word, or a struct")
    line = rf"(?m)^(define [^\n]*@{name}\([^\n]*\)) (#\d+ \{{)$"
    text, n = re.subn(line, rf'\1 "wasm-export-name"="{name}" \2', text)
    return text if n == 1 else sys.exit(f"retarget: no export {name}")


def main(source, to, *exports):
    text = open(source, encoding="utf-8", errors="surrogateescape").read()
    found = refused(text)
    if found:
        sys.exit(f"retarget: not for wasm64: {', '.join(sorted(found))}")
    text = re.sub(r"(?m)^target datalayout = .*$", f'target datalayout = "{LAYOUT}"', text)
    text = re.sub(r"(?m)^target triple = .*$", 'target triple = "wasm64-unknown-unknown"', text)
    text = X86.sub("", text.replace('"probe-stack"="inline-asm"', PLAIN))
    for name in exports:
        text = exported(text, name)
    open(to, "w", encoding="utf-8", errors="surrogateescape").write(text)


main(*sys.argv[1:])
