"""The engine in a browser answers as the program does."""

import json

from recorded.trial import point

from .cases import answer, example_cases, packed, random_cases
from .person import Person

SCRIPT = """(async cases => {
  const bytes = it => Uint8Array.from(atob(it), it => it.charCodeAt(0)), csp = (window.wrappedJSObject ?? window).csp;
  const text = all => { let said = ''; for (let at = 0; at < all.length; at += 4096)
    said += String.fromCharCode(...all.subarray(at, at + 4096)); return btoa(said); };
  const answers = [];
  for (const [words, files] of cases) {
    const got = await csp(words, files.map(([name, data]) => [name, bytes(data)]));
    answers.push([got.code, text(got.bytes)]);
  }
  return JSON.stringify(answers);
})"""


def compared(browser, cases):
    """The cases that the page answers in another way."""
    differ = []
    for at in range(0, len(cases), 50):
        part = cases[at : at + 50]
        given = json.dumps([packed(*it) for it in part])
        came = json.loads(browser.run(f"({SCRIPT})({given})"))
        differ += [(it, got, want) for it, got, want in zip(part, came, (answer(*it) for it in part)) if got != want]
    return differ


def points(kind, count="2000", seed="7"):
    browser = Person(kind).browser
    try:
        for name, cases in (("examples", example_cases()), ("random cases", random_cases(int(count), int(seed)))):
            differ = compared(browser, cases)
            point(f"{kind.name}: {len(cases)} {name} as the program answers", [], differ[:3])
    finally:
        browser.close()
