#!/usr/bin/env python3
"""Reads what retarget.py and to32.py wrote, takes back each change, and compares every line with what they were given.

usage: undone.py retarget IN.ll OUT.ll EXPORT..
       undone.py to32 IN.ll OUT.ll
It shares no code with them: it reads the changed lines by patterns of their own, and knows nothing of the ones that were
not changed. It also looks that nothing is left in OUT.ll that would read or write a pointer as 4 bytes.
"""

import re
import sys

NAME = r"[^\s,]+"
WHOLE = r"(?:<[^>]*\bptr\b[^>]*>|\[[^\]]*\bptr\b[^\]]*\]|\{[^}]*\bptr\b[^}]*\})"
# What a module of 32 bits may not have where pointers in memory keep 8 bytes
LEFT = [
    (r"= (?:load|alloca) (?:volatile )?ptr\b", "loads or holds a pointer as 4 bytes"),
    (rf"= (?:load|alloca) (?:volatile )?{WHOLE}", "loads or holds a pointer in a whole"),
    (r"^\s+store (?:volatile )?ptr ", "stores a pointer as 4 bytes"),
    (rf"^\s+store (?:volatile )?{WHOLE} ", "stores a pointer in a whole"),
    (r"\bgetelementptr (?:\w+ )*(?!i8\b)[^\s(]+,", "steps over more than bytes"),
    (r"\batomicrmw\b|\bcmpxchg\b|\batomic\b", "is atomic"),
    (r"\bx ptr\b", "has an array or a vector of pointers"),
    (r"\b(?:byval|sret|inalloca|preallocated)\(", "passes a whole by its place"),
    (r"\bptrtoaddr\b", "asks for an address"),
]


def lines_of(name):
    return open(name, encoding="utf-8", errors="surrogateescape").read().split("\n")


def differ(at, given, back):
    sys.exit(f"undone: line {at + 1} was\n    {given}\nand is, taken back,\n    {back}")


def compare(given, back):
    for at, (first, second) in enumerate(zip(given, back)):
        if first != second:
            differ(at, first, second)
    if len(given) != len(back):
        sys.exit(f"undone: {len(given)} lines were given, and {len(back)} came")


class Written:
    """The lines of OUT.ll, read from the front."""

    def __init__(self, lines):
        self.lines, self.at = lines, 0

    def take(self, pattern):
        """The next line, where it is so."""
        found = self.at < len(self.lines) and re.fullmatch(pattern, self.lines[self.at])
        self.at += bool(found)
        return found

    def must(self, pattern):
        return self.take(pattern) or sys.exit(f"undone: line {self.at + 1} of the output isn't {pattern}")


def member(out, number, at, name, kind_of):
    """One of the two loads of a pair, and its place in the pair: the type that it has there."""
    part = re.escape(f"%p{number}.{at}")
    loaded = out.must(rf"\s+{part} = load (\w+), ptr ({NAME}), align 8(.*)")
    pointer = out.take(rf"\s+{re.escape(f'%w{number}.{at}')} = inttoptr i64 {part} to ptr")
    value = f"%w{number}.{at}" if pointer else f"%p{number}.{at}"
    if pointer and loaded[1] != "i64":
        sys.exit(f"undone: a pointer is loaded as {loaded[1]}")
    kind = "ptr" if pointer else loaded[1]
    held = "poison" if at == 0 else re.escape(f"%i{number}")
    put = out.must(rf"\s+({NAME}) = insertvalue (\{{ \w+, \w+ \}}) {held}, {kind} {re.escape(value)}, {at}")
    return kind, loaded[2], loaded[3], put[1], put[2]


def pair(out, found):
    """The load of a pair that these lines stand for."""
    space, number, place = found.groups()
    first = member(out, number, 0, None, None)
    second = member(out, number, 1, None, None)
    whole = f"{{ {first[0]}, {second[0]} }}"
    told = (first[1], second[1], first[2], first[3], first[4], second[4])
    if told != (place, f"%g{number}", second[2], f"%i{number}", whole, whole):
        sys.exit(f"undone: the parts of pair {number} don't fit together")
    return f"{space}{second[3]} = load {whole}, ptr {place}, align 8{first[2]}"


def one(out):
    """The line that the next ones of the output stand for."""
    if found := out.take(rf"(\s+)(%w\d+) = load i64, ptr ({NAME}), (align \d+.*)"):
        made = out.must(rf"\s+({NAME}) = inttoptr i64 {re.escape(found[2])} to ptr")
        return f"{found[1]}{made[1]} = load ptr, ptr {found[3]}, {found[4]}"
    if found := out.take(r"(\s+)(%w\d+) = ptrtoint ptr (.+) to i64"):
        put = out.must(rf"\s+store i64 {re.escape(found[2])}, ptr ({NAME}), (align \d+.*)")
        return f"{found[1]}store ptr {found[3]}, ptr {put[1]}, {put[2]}"
    if found := out.take(rf"(\s+)%g(\d+) = getelementptr i8, ptr ({NAME}), i64 8"):
        return pair(out, found)
    line = out.lines[out.at]
    out.at += 1
    return line


def plain(line):
    """A line of IN.ll with what to32.py may say in other words: an address is a number, a slot has 8 bytes."""
    line = re.sub(r"= ptrtoaddr ptr", "= ptrtoint ptr", line)
    return re.sub(r"= alloca ptr\b", "= alloca i64", line)


def without_zeros(line):
    """A constant without the zeros behind its pointers, of which type and value have equally many."""
    bare = re.sub(r'c?"(?:[^"\\]|\\.)*"', "", line)
    kinds, values = bare.count("ptr, [4 x i8]"), bare.count(", [4 x i8] zeroinitializer")
    pointers = len(re.findall(r"\bptr\b", re.sub(r"getelementptr \([^()]*\)", "", bare)))
    if not kinds == values == pointers / 2:
        sys.exit(f"undone: a constant has {pointers} pointers, {kinds} places and {values} zeros:\n    {line}")
    return line.replace("ptr, [4 x i8]", "ptr").replace(", [4 x i8] zeroinitializer", "")


def same_target(given, back):
    """The lines of the target, which may differ, taken for equal."""
    for words in ("target datalayout = ", "target triple = "):
        first = [at for at, it in enumerate(given) if it.startswith(words)]
        second = [at for at, it in enumerate(back) if it.startswith(words)]
        if first != second or len(first) != 1:
            sys.exit(f"undone: not one line begins with {words!r}")
        back[first[0]] = given[first[0]]


def to32(source, to):
    given, out, back = lines_of(source), Written(lines_of(to)), []
    if any(re.search(r"\b(?:inttoptr|\[4 x i8\] zeroinitializer)\b", it) for it in given):
        sys.exit("undone: what was given has what only to32.py writes")
    for line in out.lines:
        for pattern, what in LEFT:
            if not line.startswith((";", "!")) and re.search(pattern, line):
                sys.exit(f"undone: a line {what}:\n    {line}")
    while out.at < len(out.lines):
        line = one(out)
        back.append(without_zeros(line) if line.startswith("@") and ", [4 x i8] zeroinitializer" in line else line)
    same_target(given, back)
    for line in back:
        if line.startswith("@") and re.search(r"constant <\{[^}]*\bptr\b", line) and line in out.lines:
            sys.exit(f"undone: a constant has a pointer of 4 bytes:\n    {line}")
    compare([plain(it) for it in given], back)


def retarget(source, to, *exports):
    given, back = lines_of(source), lines_of(to)
    same_target(given, back)
    for at, line in enumerate(back):
        for name in exports:
            if line.startswith("define ") and f"@{name}(" in line:
                back[at] = line.replace(f' "wasm-export-name"="{name}"', "")
        if line.startswith("attributes #"):
            back[at] = told(line)
            given[at] = told(given[at], of_x86=True)
    compare(given, back)


def told(line, of_x86=False):
    """The attributes of a line that say something on both machines, in order."""
    words = re.findall(r'"[^"]*"(?:="[^"]*")?|[^\s{}]+', line)
    x86 = ("probe-stack", "stack-probe-size", "target-cpu", "target-features", "tune-cpu")
    taken = tuple(f'"{it}"=' for it in x86) if of_x86 else ('"no-builtin-',)
    return " ".join(it for it in words if not it.startswith(taken))


{"to32": to32, "retarget": retarget}[sys.argv[1]](*sys.argv[2:])
