"""The page as a person uses it: fields, files, questions, and what is then said."""

import json
import os
import re
import sys
from urllib.parse import quote

from recorded.trial import TOP

from .browsers import PAGE

QUESTIONS = ("blocked", "attacker", "weaker", "make", "reports")
FURTHER = ("framed", "shorter", "proof", "required")
ANSWERED = "Number(document.body.dataset.answered ?? 0)"
SAYS = """[...document.querySelectorAll('[data-says]')].filter(it => !it.closest('[hidden], #own'))
  .map(it => it.dataset.says)"""
FRESH = """document.getElementById('busy').hidden
  && document.querySelector('#answers .says:not(.stale > .says)') !== null"""


class Person:
    """A browser with the page, once its first answer stands there and it has judged itself."""

    def __init__(self, kind):
        url = os.environ.get("PAGE_URL") or PAGE.as_uri()
        os.environ.get("PAGE_URL") or PAGE.exists() or sys.exit(
            f"bench/page: there is no {PAGE}: packaging/ship makes it"
        )
        self.browser, self.seen, self.links = kind(), set(), 0
        self.browser.look(1280, False)
        self.browser.open(url)
        self.browser.wait("document.body?.dataset.own === 'judged' && document.body.dataset.answered > 0")
        self.note()

    def note(self):
        """Keeps the names of the sentences that are shown."""
        self.seen |= set(self.browser.run(SAYS))

    def does(self, what):
        """What is answered once something was done."""
        before = self.browser.run(ANSWERED)
        what()
        self.browser.wait(f"{ANSWERED} > {before} && document.getElementById('busy').hidden")
        self.note()
        return self.sentence

    def paste(self, text):
        self.browser.fill("#paste", text)
        return self.does(lambda: self.browser.click("#take"))

    def open(self, *files):
        return self.does(lambda: self.browser.attach("#open", *files))

    def write(self, field, text):
        """Writes into a field, as its input event tells the page."""
        code = (
            f"(it => {{ it.value = {json.dumps(text)}; it.dispatchEvent(new Event('input', {{ bubbles: true }})); }})"
        )
        self.browser.run(f"void {code}(document.querySelector({json.dumps(field)}))")
        self.note()

    def ask(self):
        return self.does(lambda: self.browser.click("#given button[type=submit]"))

    def choose(self, question):
        """Goes to a question, and waits where it has no answer yet."""
        if question in FURTHER:
            self.browser.click("#more")
            self.browser.click(f"input[value={question}]")
        else:
            self.browser.click(f"#{question}")
        self.browser.wait(FRESH)
        self.note()
        return self.sentence

    def restore(self, question, state):
        """Puts what a link holds into the page, and waits for the answer."""
        tab = question if question in QUESTIONS else "more"
        self.links += 1
        told = {
            "link": self.links,
            "tab": tab,
            "further": question if tab == "more" else "framed",
            "origin": "https://shop.example",
            **state,
        }
        address = "#" + quote(json.dumps(told))
        return self.does(lambda: self.browser.run(f"void (location.hash = {json.dumps(address)})"))

    @property
    def sentence(self):
        return self.browser.text("#answers .sentence")

    @property
    def mood(self):
        return self.browser.run("document.querySelector('#answers .says')?.className.replace('says ', '')")

    @property
    def answer(self):
        return self.browser.text("#answers")


def names():
    """The names of all sentences."""
    text = (TOP / "page/sentences.js").read_text()
    return set(re.findall(r"^  (\w+): ", text, re.MULTILINE))
