"""Streams of requests, and the folder examples/har."""

import json
import os
import shutil
import subprocess
import tempfile
from pathlib import Path

from .trial import ENVIRONMENT, ORIGIN, PROGRAM, TOOLS, TOP, fetch, guidecerise, point, run

IMAGE = '{"kind":"fetch","destination":"image","url":"https://%s.example/"}'


def many(descriptions, **environment):
    """The status, the lines and the errors of tools/many, where images of a.example alone are allowed."""
    with tempfile.NamedTemporaryFile("w", suffix=".txt") as policy:
        policy.write("Content-Security-Policy: img-src https://a.example\n")
        policy.flush()
        done = subprocess.run(
            [TOOLS / "many", ORIGIN, policy.name],
            input="".join(line + "\n" for line in descriptions),
            capture_output=True,
            encoding="utf-8",
            env={**ENVIRONMENT, **environment},
        )
    return done.returncode, done.stdout.splitlines(), done.stderr


def streams_are_judged():
    """Streams within and beyond the limits of a request file, and descriptions that are refused."""
    stream = [IMAGE % ("a" if at % 3 else "b") for at in range(25_001)]
    words = ["allowed" if at % 3 else "blocked 0:enforce:img-src/img-src" for at in range(25_001)]
    verdicts = [f"{at} {word}" for at, word in enumerate(words, 1)]
    point("25,001 descriptions, in their order", (1, verdicts, ""), many(stream))
    few = [IMAGE % "a", "", IMAGE % "a"]
    point("none blocked, an empty line passed over", (0, ["1 allowed", "2 allowed"], ""), many(few))
    point("no descriptions", (0, [], ""), many([]))
    long = {"kind": "inline", "type": "style", "source": "é" * 1_500_000}
    long = json.dumps(long, ensure_ascii=False)
    allowed = ["1 allowed", "2 allowed", "3 allowed"]
    point("three of 3 MB, in files within the limit of bytes", (0, allowed, ""), many([long] * 3))
    status, _, said = many([IMAGE % "a"] * 10_000 + ['{"kind":"fetch"}'])
    text = "many: of the descriptions 10001 to 10001: bad requests: request 1 destination\n"
    point("a description that is refused", (6, True), (status, text in said))
    status, _, said = many(["{}, {}"])
    point("a line that isn't one description", (6, True), (status, "of the descriptions 1 to 1" in said))
    with tempfile.TemporaryDirectory() as folder:
        for name in "bash env awk grep dirname readlink".split():
            os.symlink(shutil.which(name), f"{folder}/{name}")
        status, _, said = many([IMAGE % "a"], PATH=folder)
    text = "many: this needs GNU parallel (Debian's package parallel)\n"
    point("parallel isn't there", (70, text), (status, said))


SHOP = TOP / "examples/har"
# Destination, URLs, and whether the parser inserted it. A URL without a host is one of img.example.net.
SHOP_REQUESTS = """
style https://shop.example/css/main.css parser
style https://fonts.example.org/css?family=Inter parser
script https://cdn.example.net/lib.js parser
script https://shop.example/js/app.js parser
script https://tags.example.com/t.js
font https://fonts.example.org/inter.woff2 parser
image https://shop.example/logo.svg parser
image https://img.example.net/p/1.jpg /p/1-large.jpg https://cache.example.net/1-large.jpg parser
image https://stats.example.com/p.gif?page=1
image http://old.example.net/badge.png parser
connect https://api.shop.example/v1/cart
connect https://shop.example/stock
connect https://shop.example/events
connect https://stats.example.com/beacon
connect wss://live.shop.example/updates
iframe https://pay.example.com/widget parser
manifest https://shop.example/site.webmanifest parser
video https://media.example.net/intro.mp4 parser
track https://media.example.net/intro.vtt parser
worker https://shop.example/js/worker.js
serviceworker https://shop.example/sw.js
object https://shop.example/plan.pdf parser
image https://shop.example/favicon.ico
"""
SHOP_VERDICTS = {
    10: "10 blocked 0:enforce:img-src/img-src 1:report:img-src/default-src",
    14: "14 blocked 0:enforce:connect-src/connect-src",
    22: "22 blocked 0:enforce:object-src/object-src",
}


def the_example_is_so():
    _, requests, _ = guidecerise("requests", str(SHOP / "page.har"))
    expected = []
    for line in SHOP_REQUESTS.split("\n")[1:-1]:
        destination, *urls = line.removesuffix(" parser").split()
        urls = ["https://img.example.net" * url.startswith("/") + url for url in urls]
        inserted = {"parser-inserted": True} if line.endswith(" parser") else {}
        expected.append(fetch(destination.replace("connect", ""), *urls, **inserted))
    bare = [{name: value for name, value in one.items() if name != "note"} for one in json.loads(requests)]
    point("examples/har: the requests", expected, bare)
    point("examples/har: requests.json", (SHOP / "requests.json").read_text(), requests)
    judged = run(PROGRAM, "judge", "https://shop.example", str(SHOP / "policy.txt"), str(SHOP / "requests.json"))
    expected = [SHOP_VERDICTS.get(at, f"{at} allowed") for at in range(1, 24)]
    point("examples/har: the verdicts of the present header", (1, expected), (judged[0], judged[1].splitlines()))
    status, output, _ = guidecerise("judge", str(SHOP / "page.har"), "--json")
    items = json.loads(output)["answer"]["pages"][0]["items"]
    point("examples/har: the same of the HAR itself", (1, [10, 14, 22]),
          (status, [one["number"] for one in items if one["blocked"]]))


POINTS = [streams_are_judged]
EXAMPLES = [the_example_is_so]
