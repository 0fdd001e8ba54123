#!/usr/bin/env python3
"""Turns a module for wasm64 into one for wasm32 in which a pointer in memory still takes 8 bytes.

usage: to32.py IN.ll OUT.ll
So every type keeps the layout for which the module was made. A pointer is loaded and stored as a number of 64 bits,
and in constants 4 bytes of zeros follow it. page/undone.py reads what this writes, and compares it with IN.ll.
"""

import re
import sys

LAYOUT = "e-m:e-p:32:32-p10:8:8-p20:8:8-i64:64-i128:128-n32:64-S128-ni:1:10:20"
SYMBOL = r'@(?:"(?:[^"\\]|\\.)*"|[\w.$-]+)'
LOAD = re.compile(r"(\s+)(%\S+) = load ptr, ptr (\S+), (align \d+.*)")
STORE = re.compile(r"(\s+)store ptr (.+), ptr (\S+), (align \d+.*)")
PAIR = re.compile(r"(\s+)(%\S+) = load \{ (\w+), (\w+) \}, ptr (\S+), align 8(.*)")
CONSTANT = re.compile(r"(@.*? constant )(<\{.*?\}>) (<\{.*\}>.*)")


def constant(head, kind, body):
    """A constant in which 4 bytes of zeros follow each pointer."""
    kind = re.sub(r"\bptr\b", "ptr, [4 x i8]", kind)
    one = rf"\bptr (getelementptr \((?:\w+ )*i8, ptr {SYMBOL}, i64 -?\d+\)|{SYMBOL}|null)(?=[, ])"
    body = re.sub(one, r"ptr \1, [4 x i8] zeroinitializer", body)
    return f"{head}{kind} {body}"


def pair(n, space, name, kinds, place, rest):
    """The load of a pair of words, at least one of which is a pointer, as two loads."""
    lines, held = [], "poison"
    lines.append(f"{space}%g{n} = getelementptr i8, ptr {place}, i64 8")
    for member, (kind, at) in enumerate(zip(kinds, (place, f"%g{n}"))):
        part, put = f"%p{n}.{member}", name if member else f"%i{n}"
        lines.append(f"{space}{part} = load {'i64' if kind == 'ptr' else kind}, ptr {at}, align 8{rest}")
        if kind == "ptr":
            lines.append(f"{space}%w{n}.{member} = inttoptr i64 {part} to ptr")
            part = f"%w{n}.{member}"
        whole = "{ " + ", ".join(kinds) + " }"
        lines.append(f"{space}{put} = insertvalue {whole} {held}, {kind} {part}, {member}")
        held = put
    return lines


def rewritten(n, line):
    """The lines that stand for one; n is a number that no other line has."""
    if found := LOAD.fullmatch(line):
        space, name, place, rest = found.groups()
        return [f"{space}%w{n} = load i64, ptr {place}, {rest}", f"{space}{name} = inttoptr i64 %w{n} to ptr"]
    if found := STORE.fullmatch(line):
        space, value, place, rest = found.groups()
        return [f"{space}%w{n} = ptrtoint ptr {value} to i64", f"{space}store i64 %w{n}, ptr {place}, {rest}"]
    if (found := PAIR.fullmatch(line)) and "ptr" in found.group(3, 4):
        return pair(n, found[1], found[2], found.group(3, 4), found[5], found[6])
    if line.startswith("@") and (found := CONSTANT.fullmatch(line)) and "ptr" in found[2]:
        return [constant(*found.groups())]
    if line.startswith("target datalayout"):
        return [f'target datalayout = "{LAYOUT}"']
    if line.startswith("target triple"):
        return ['target triple = "wasm32-unknown-unknown"']
    return [re.sub(r"= alloca ptr\b", "= alloca i64", line.replace(" = ptrtoaddr ptr", " = ptrtoint ptr"))]


def main(source, to):
    text = open(source, encoding="utf-8", errors="surrogateescape").read()
    lines = [it for n, line in enumerate(text.split("\n")) for it in rewritten(n, line)]
    open(to, "w", encoding="utf-8", errors="surrogateescape").write("\n".join(lines))


main(*sys.argv[1:])
