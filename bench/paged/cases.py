"""Cases for the engine: the words and the files of a run, and what the program answers to them."""

import base64
import json
import random
import subprocess
import tempfile
from pathlib import Path

from recorded.trial import PROGRAM, TOP

KEYWORDS = ["'self'", "'none'", "'unsafe-inline'", "'SELF'", "'nonce-abc'", "'strict-dynamic'", "'unsafe-eval'", "'unsafe-hashes'",
            "'sha256-47DEQpj8HBSa+/TImW+5JCeuQeRkm5NMpJWZG3hSuFU='", "'report-sample'", "https:", "data:", "ws:", "*", "junk!", "none"]
HOSTS = ["a.example", "b.example", "*.b.example", "x.b.example", "B.EXAMPLE", "127.0.0.1", "localhost", "%62.example", "[::1]"]
DIRECTIVES = ["img-src", "default-src", "script-src", "style-src", "connect-src", "font-src", "frame-src", "frame-ancestors",
              "base-uri", "form-action", "object-src", "sandbox", "report-uri", "IMG-SRC", "image-src", "script-src-elem"]
ORIGINS = ["https://a.example", "http://a.example", "https://b.example:8443", "null", "https://a.example/path", "a.example"]
NAMES = ["Content-Security-Policy", "Content-Security-Policy", "content-security-policy-report-only",
         "Meta-Content-Security-Policy", "Server"]
DESTINATIONS = ["", "image", "script", "style", "font", "frame", "worker", "object", "manifest", "video", "img"]
URLS = ["https://a.example/x.png", "https://b.example:8443/a/b?q", "http://x.b.example/", "data:,x", "wss://b.example/s", "/x",
        "https://[::1]/x", "https://c.test/"]


KINDS = ["fetch"] * 3 + ["inline", "eval", "wasm", "base", "form", "ancestors", "capability", "worker-start"]
VERBS = ["judge", "judge", "report", "compare", "compare", "check", "embed", "tidy", "learn", "order", "drill"]
VERBS += ["usage", "why", "differ", "missing", "read"]


class Maker:
    def __init__(self, seed):
        self.random = random.Random(seed)

    def pick(self, *items):
        return self.random.choice(items[0] if len(items) == 1 else items)

    def source(self):
        if self.random.random() < 0.5:
            return self.pick(KEYWORDS)
        port, path = self.pick("", "", ":443", ":8443", ":*", ":0443"), self.pick("", "", "/", "/a/", "/a/b", "/%61", "/a?q")
        return self.pick("", "", "https://", "http://", "wss://") + self.pick(HOSTS) + port + path

    def directive(self):
        name = self.pick(DIRECTIVES)
        words = ["allow-scripts", "allow-forms"] if name == "sandbox" else [self.source() for _ in range(self.pick(0, 1, 1, 2, 3))]
        return " ".join([name, *words])

    def block(self):
        lines = [self.pick("HTTP/2 200\n", "", "")]
        for _ in range(self.pick(0, 1, 1, 1, 2, 3)):
            policies = ["; ".join(self.directive() for _ in range(self.pick(1, 2, 3))) for _ in range(self.pick(1, 1, 2))]
            lines.append(f"{self.pick(NAMES)}: {', '.join(policies)}{self.pick(chr(10), chr(10), chr(13) + chr(10))}")
        if self.random.random() < 0.05:
            lines.append("no colon here\n")
        return "".join(lines).encode()

    def request(self):
        kind = self.pick(KINDS)
        made = {"kind": kind}
        if kind == "fetch":
            made["destination"] = self.pick(DESTINATIONS[:-1] * 9 + DESTINATIONS)
            made |= {"urls": [self.pick(URLS), self.pick(URLS)]} if self.random.random() < 0.2 else {"url": self.pick(URLS[:5])}
            made |= self.pick({}, {}, {"nonce": "abc"}, {"parser-inserted": True}, {"integrity": "sha256-x"})
        elif kind == "inline":
            made |= {"type": self.pick("script", "style", "script-attribute", "navigation"), "source": self.pick("", "x()")}
        elif kind in ("base", "form"):
            made["url"] = self.pick(URLS[:5])
        elif kind == "ancestors":
            made["ancestors"] = [self.pick("https://p.example", "null", "https://b.example") for _ in range(self.pick(0, 1, 2))]
        elif kind == "capability":
            made["name"] = self.pick("scripts", "forms", "popups")
        return made

    def requests(self):
        if self.random.random() < 0.05:
            return self.pick(b"", b"{}", b"[", b"[1]", b"[{}]", b"\xff[]")
        return json.dumps([self.request() for _ in range(self.pick(0, 1, 2, 5))]).encode()

    def case(self):
        origin, a, b = self.pick(ORIGINS[:3] * 4 + ORIGINS), self.block(), self.block()
        verb = self.pick(VERBS)
        if verb in ("judge", "report", "why"):
            return [verb, origin, "p", "r"], [("p", a), ("r", self.requests())]
        if verb in ("compare", "differ"):
            return [verb, origin, "p", "q"], [("p", a), ("q", self.pick(a, b))]
        if verb == "check":
            proof = self.pick(b"csp-proof 2\nend\n", b"csp-proof 2\ntree 0 0\n", b"", b"csp-proof 1\nend\n")
            return [verb, origin, "p", "q", "f"], [("p", a), ("q", b), ("f", proof)]
        if verb == "embed":
            required = self.pick(a, b"Content-Security-Policy: img-src https:\n")
            response = self.pick(b"", b"Allow-CSP-From: *\n") + b
            return [verb, self.pick(ORIGINS), origin, "p", "q"], [("p", required), ("q", response)]
        if verb == "order":
            return [verb, origin, "p", "q", "p"], [("p", a), ("q", b)]
        if verb in ("tidy", "learn", "read"):
            return [verb, origin, "p"], [("p", self.requests() if verb == "learn" else a)]
        if verb == "drill":
            return [verb, self.pick("1", "2", "7", "12", "0", "007", "201", "x")], []
        if verb == "missing":
            return ["judge", origin, "p", "not-there"], [("p", a)]
        return self.pick([], ["judge"], ["help", "x"], ["compare", origin, "p"], ["é", "x", "y"]), []


def random_cases(count, seed):
    maker = Maker(seed)
    return [maker.case() for _ in range(count)]


def example_cases():
    """Each command over the files of each example."""
    cases = []
    for folder in sorted(it for it in (TOP / "examples").iterdir() if it.is_dir()):
        files = {it.name: it.read_bytes() for it in folder.iterdir() if it.suffix in (".txt", ".json")}
        texts, requests = [it for it in files if it.endswith(".txt")], [it for it in files if it.endswith(".json")]
        for text in texts:
            cases += [([verb, "https://a.example", text, it], [(text, files[text]), (it, files[it])])
                      for it in requests for verb in ("judge", "report", "why")]
            cases.append((["tidy", "https://a.example", text], [(text, files[text])]))
            cases += [([verb, "https://a.example", text, it], [(text, files[text]), (it, files[it])])
                      for it in texts for verb in ("compare", "differ") if it != text]
        cases += [(["learn", "https://a.example", it], [(it, files[it])]) for it in requests]
        if {"new.txt", "old.txt"} <= set(files):
            for proof in set(texts) - {"new.txt", "old.txt"}:
                names = ["new.txt", "old.txt", proof]
                cases.append((["check", "https://a.example", *names], [(it, files[it]) for it in names]))
        if "required.txt" in files:
            cases += [(["embed", "https://e.example", "https://a.example", "required.txt", it],
                       [("required.txt", files["required.txt"]), (it, files[it])]) for it in texts]
        if len(texts) > 1:
            cases.append((["order", "https://a.example", *texts], [(it, files[it]) for it in texts]))
    return cases


def answer(words, files, program=PROGRAM):
    """The status and output of a program: the one that is tried, where none is named."""
    with tempfile.TemporaryDirectory() as room:
        for name, data in files:
            Path(room, name).write_bytes(data)
        done = subprocess.run([program, *words], cwd=room, capture_output=True)
    return [done.returncode, base64.b64encode(done.stdout).decode()]


def packed(words, files):
    """A case as the page's script is given it."""
    return [words, [[name, base64.b64encode(data).decode()] for name, data in files]]
