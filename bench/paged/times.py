"""How long the page takes: to its first answer, for a large recording, and for large inputs beside the program."""

import json
import os
import statistics
import tempfile
import time
from pathlib import Path

from recorded.large import recording
from recorded.trial import PROGRAM, point, run

from .person import Person

ASK = """(async ([words, files]) => {
  const csp = (window.wrappedJSObject ?? window).csp, began = performance.now();
  const got = await csp(words, files);
  return [got.code, performance.now() - began];
})"""
# When the first answer stood in the page, in milliseconds after the file was opened
FIRST = "performance.getEntriesByName('first-answer')[0]?.startTime"
POLICY = "Content-Security-Policy: default-src 'self'; img-src 'self' https://img.example.net"


def inputs():
    requests = [
        {"kind": "fetch", "destination": "image", "url": f"https://h{n % 97}.example/x/{n}.png"} for n in range(10000)
    ]
    sources = " ".join(f"https://h{n}.example" for n in range(97) if n % 3)
    hosts = " ".join(f"https://h{n}.example" for n in range(1024))
    policy, whole = f"Content-Security-Policy: img-src {sources}\n", f"Content-Security-Policy: img-src {hosts}\n"
    return {
        "judge of 10,000 requests": (
            ["judge", "https://a.example", "p", "r"],
            [["p", policy], ["r", json.dumps(requests)]],
        ),
        "compare of 1,024 hosts": (["compare", "https://a.example", "p", "q"], [["p", whole], ["q", whole]]),
    }


def native(words, files):
    """The program's status and its least time of five, in milliseconds."""
    with tempfile.TemporaryDirectory() as room:
        for name, text in files:
            Path(room, name).write_text(text)
        here, took = os.getcwd(), []
        os.chdir(room)
        for _ in range(5):
            began = time.perf_counter()
            status, _, _ = run(PROGRAM, *words)
            took.append((time.perf_counter() - began) * 1000)
        os.chdir(here)
    return status, min(took)


def first_answers(kind):
    firsts = []
    for _ in range(3):
        person = Person(kind)
        firsts.append(person.browser.run(FIRST))
        person.browser.close()
    print(f"{kind.name}: the first answer {statistics.median(firsts):.0f} ms after opening the file")
    point(f"{kind.name}: the first answer comes within a second", True, statistics.median(firsts) < 1000)


def a_recording(person):
    with tempfile.TemporaryDirectory() as room:
        file = Path(room, "large.har")
        file.write_text(recording())
        person.paste(POLICY)
        began = time.time()
        person.open(file)
        took = time.time() - began
    print(f"{person.browser.name}: a recording of {file.name} with content: {took:.1f} s")
    point(f"{person.browser.name}: a recording of 10 MB is judged within two seconds", True, took < 2)


def points(kind):
    first_answers(kind)
    person = Person(kind)
    try:
        a_recording(person)
        for name, (words, files) in inputs().items():
            status, by_program = native(words, files)
            came = [person.browser.run(f"({ASK})({json.dumps([words, files])})") for _ in range(5)]
            least = min(it for _, it in came)
            print(f"{kind.name}: {name}: {least:.0f} ms, the program {by_program:.0f} ms")
            told = (came[0][0], least <= 3 * by_program)
            point(f"{kind.name}: {name} within three times the program's time", (status, True), told)
    finally:
        person.browser.close()
