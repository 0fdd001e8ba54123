"""Of all places of a shop where a browser reports a violation: how many the readers and the engine find.

The shop has four pages, of which most code is inline, and some twenty foreign hosts. All of it is served on the
loopback address, by TLS with a certificate that the browser is told to pass over. It is recorded once without a
policy, as RECORDINGS tells, and that recording is judged under each policy. Then the browser loads the pages under
that policy, once enforced and once as a report-only one, and says itself what it blocks. Each link with a
`javascript:` URL is clicked.
"""

import base64
import json
import shutil
import ssl
import subprocess
import tempfile
import threading
import time
from http.server import BaseHTTPRequestHandler, ThreadingHTTPServer
from pathlib import Path

from paged.browsers import Firefox

from .browser import Chromium, Recorder
from .trial import TOP, guidecerise, point

HERE = Path(__file__).parent
RESULTS = TOP / "bench/results/recorded.txt"
PAGES = ["index.html", "product.html", "checkout.html", "account.html"]
ORIGIN = "https://shop.test"
TYPES = {".css": "text/css", ".js": "text/javascript", ".html": "text/html", ".webmanifest": "application/manifest+json"}
TYPES |= {".png": "image/png", ".webp": "image/webp", ".svg": "image/svg+xml", ".mp4": "video/mp4", ".pdf": "application/pdf"}
NAMES = ["documentURI", "blockedURI", "effectiveDirective", "originalPolicy", "disposition", "sourceFile", "lineNumber"]
NAMES += ["columnNumber", "sample"]
WATCH = f"""window.seenViolations = [];
addEventListener("securitypolicyviolation", event => seenViolations.push(
    Object.fromEntries({json.dumps(NAMES)}.map(name => [name, event[name]]))));"""
WATCHED = b'<head><script src="/watch.js" nonce="R4nd0mPerRequest"></script>'  # on the same line
CLICK = """document.querySelectorAll("a[href^='javascript:' i]").forEach(it => it.click())"""


EMPTY = {"iframe": b"<!DOCTYPE html><title>frame</title>", "image": base64.b64decode("R0lGODlhAQABAAAAACwAAAAAAQABAAA=")}


class Shop(BaseHTTPRequestHandler):
    """Answers for all hosts: the shop's files under its own name, and nearly empty ones of the right type elsewhere."""

    def do_GET(self):
        path = self.path.partition("?")[0]
        isShop = self.headers.get("Host", "").split(":")[0] == "shop.test"
        file = HERE / "shop" / ("index.html" if path == "/" else path.lstrip("/"))
        end = Path(path).suffix
        dest = self.headers.get("Sec-Fetch-Dest", "")
        kind = TYPES.get(end) or {"script": "text/javascript", "style": "text/css", "iframe": "text/html",
                                  "document": "text/html", "image": "image/png"}.get(dest, "text/plain")
        body = file.read_bytes() if isShop and file.is_file() else b""
        if isShop and path == "/watch.js":
            body = WATCH.encode()
        elif isShop and "Firefox" in self.headers.get("User-Agent", ""):
            body = body.replace(b"<head>", WATCHED, 1)
        body = body or EMPTY.get(dest, b"")
        self.send_response(200)
        self.send_header("Content-Type", kind)
        self.send_header("Access-Control-Allow-Origin", self.headers.get("Origin", "*"))
        self.send_header("Content-Length", str(len(body)))
        if isShop and dest == "document" and self.server.policy:
            self.send_header(*self.server.policy)
        self.end_headers()
        self.wfile.write(body)

    do_POST = do_GET

    def log_message(self, *_):
        pass


def serve(folder):
    """A server of the shop by TLS."""
    key, cert = Path(folder) / "key.pem", Path(folder) / "cert.pem"
    words = ["openssl", "req", "-x509", "-newkey", "rsa:2048", "-nodes", "-keyout", key, "-out", cert]
    subprocess.run([*words, "-days", "2", "-subj", "/CN=shop.test"], check=True, capture_output=True)
    try:
        server = ThreadingHTTPServer(("127.0.0.2", 443), Shop)
    except OSError:
        server = ThreadingHTTPServer(("127.0.0.2", 0), Shop)  # of which Firefox can't be told
    server.handle_error = lambda *_: None  # connections that aren't by TLS
    server.policy = None
    context = ssl.SSLContext(ssl.PROTOCOL_TLS_SERVER)
    context.load_cert_chain(cert, key)
    server.socket = context.wrap_socket(server.socket, server_side=True, do_handshake_on_connect=False)
    threading.Thread(target=server.serve_forever, daemon=True).start()
    return server


class Visit:
    """A visit of a page in a Chromium: its recording, and the violations that the browser told."""

    def __init__(self, browser, page):
        browser.events = []
        target = browser.ask("Target.createTarget", url="about:blank")["targetId"]
        session = browser.ask("Target.attachToTarget", targetId=target, flatten=True)["sessionId"]
        browser.ask("Network.enable", session)
        browser.ask("Page.enable", session)
        browser.ask("Page.addScriptToEvaluateOnNewDocument", session, source=WATCH)
        browser.ask("Page.navigate", session, url=f"{ORIGIN}/{page}")
        browser.settle(most=30, quiet=3)
        browser.ask("Runtime.evaluate", session, expression=CLICK)
        time.sleep(0.5)
        told = browser.ask("Runtime.evaluate", session, expression="JSON.stringify(seenViolations)")
        self.seen = json.loads(told["result"]["value"])
        self.recorder = Recorder([one for one in browser.events if one.get("sessionId") == session])
        self.har = self.recorder.har(lambda request: body_of(browser, session, request))
        browser.ask("Target.closeTarget", targetId=target)


def body_of(browser, session, request):
    """The text of an answer, or nothing."""
    told = browser.ask("Network.getResponseBody", session, requestId=request)
    return None if told is None or told["base64Encoded"] else told["body"]


def recorded(browser):
    """The recordings of all pages in one."""
    visits = [Visit(browser, page) for page in PAGES]
    entries = []
    for page, visit in zip(PAGES, visits):
        entries += [{**one, "pageref": page} for one in visit.har["log"]["entries"]]
    return {"log": {"version": "1.2", "pages": [{"id": page} for page in PAGES], "entries": entries}}


PREFERENCES = {
    "network.dns.forceResolve": "127.0.0.2",
    "dom.security.https_first": False,
    "print.enabled": False,  # the dialog of a javascript: URL that prints would hold the page
}
STATE = "[seenViolations.length, performance.getEntriesByType('resource').length]"


def settled(firefox, quiet=2, most=60):
    """Waits until for so many seconds a page tells no new violation and no new answer."""
    state, since = None, time.monotonic()
    end = since + most
    while time.monotonic() < min(since + quiet, end):
        time.sleep(0.2)
        if (now := firefox.run(STATE)) != state:
            state, since = now, time.monotonic()


def seen_in(firefox, page):
    """The violations that a script of the page keeps in Firefox, when the page is loaded, and its links clicked."""
    firefox.open(f"{ORIGIN}/{page}")
    settled(firefox)
    firefox.run(CLICK)
    settled(firefox)
    return firefox.run("seenViolations")


CAUSES = [
    ("Chromium", "img-src http://", "an image that it loads by https; a report-only policy is told of http"),
    ("Firefox", "img-src http://", "an image that it would load by https, and asks the policy about by http"),
    ("", "frame-src ", "a document in an object is a frame too in this browser, and no type of it was recorded"),
    ("", "style-src-attr inline", "a style that a script sets, of which no recording tells"),
    ("", "script-src eval", "a call in a text that the recording doesn't hold"),
]


def place(one):
    """What makes a place of a violation: a page, a directive, and what was blocked, in which line."""
    page, directive, blocked = one["documentURI"], one["effectiveDirective"], one["blockedURI"]
    return page, directive, blocked, one["lineNumber"], one["sample"]


class Row:
    """What the readers and the engine find of what a browser told under a policy."""

    def __init__(self, folder, har, policy, told):
        files = {"shop.har": json.dumps(har), "headers.txt": policy, "events.json": json.dumps(told)}
        for file, text in files.items():
            (Path(folder) / file).write_text(text)
        recording, headers, events = (str(Path(folder) / file) for file in files)
        _, output, said = guidecerise("judge", recording, "--headers", headers, "--events", events, "--json")
        if not output:
            raise ValueError(said)
        answer = json.loads(output)["answer"]
        alone = {(one["page"], one["directive"], one["blocked"], one.get("line", 0), one["sample"])
                 for one in answer["browserAlone"]}
        places = {place(one) for one in told}
        self.places = len(places)
        self.missed = sorted(one for one in places if (*one[:3], one[3] or 0, one[4]) in alone)
        items = [(page, item) for page in answer["pages"] if page["role"] == "page" for item in page["items"]]
        self.false = [(page["url"], item["request"].get("note")) for page, item in items
                      if item["items"] and not item["browser"] and not item["possible"]]

    def lines(self, browser, policy):
        """The line of the table, and those for what wasn't found and what the browser didn't tell."""
        found = self.places - len(self.missed)
        yield f"{browser:8}  {policy:6}  {self.places:6}  {found:5}  {100 * found / max(1, self.places):4.0f}%  {len(self.false):5}"
        for page, *rest in self.missed:
            text = " ".join(map(str, rest))
            cause = next((why for name, begin, why in CAUSES
                          if name in ("", browser) and text.startswith(begin)), "not known why")
            yield f"    not found: {page} {text}: {cause}"
        for page, note in self.false:
            yield f"    not told by the browser: {page} {note}"


def policies(recording):
    """The header of each policy: the shop's old one, one that is learnt of the recording, and a strict one."""
    read = {name: (HERE / f"headers/{name}.txt").read_text().splitlines() for name in ("old", "strict")}
    headers = {name: next(it for it in lines if it.startswith("content-security-policy:")) for name, lines in read.items()}
    _, learnt, _ = guidecerise("learn", str(recording), "--json")
    return {"old": headers["old"], "learnt": json.loads(learnt)["answer"]["headers"].strip(), "strict": headers["strict"]}


def told_under(header, server, seen):
    """What a browser tells under a policy that only reports, and then under the same, enforced."""
    name, _, value = header.partition(":")
    told = []
    for one in (f"{name}-Report-Only", name):
        server.policy = (one, value.strip())
        told += [{**event, "disposition": "enforce"} for page in PAGES for event in seen(page)]
    return told


def the_shop_is_found():
    """The table, which goes to bench/results/recorded.txt."""
    lines, rows = ["browser   policy  places  found  share  false"], []
    with tempfile.TemporaryDirectory(ignore_cleanup_errors=True) as folder:
        server = serve(folder)
        options = f"--host-resolver-rules=MAP * 127.0.0.2:{server.server_address[1]}", "--ignore-certificate-errors"
        chromium, firefox = Chromium(folder + "/profile", *options), None
        try:
            har = recorded(chromium)
            recording = Path(folder) / "recording.har"
            recording.write_text(json.dumps(har))
            headers = policies(recording)
            browsers = {"Chromium": lambda page: Visit(chromium, page).seen}
            if shutil.which("firefox-esr") and server.server_address[1] == 443:
                firefox = Firefox(PREFERENCES)
                browsers["Firefox"] = lambda page: seen_in(firefox, page)
            for browser, seen in browsers.items():
                for name, header in headers.items():
                    row = Row(folder, har, header, told_under(header, server, seen))
                    rows.append(row)
                    for line in row.lines(browser, name):
                        print(line, flush=True)
                        lines.append(line)
        finally:
            chromium.process.terminate()
            chromium.process.wait(20)
            if firefox:
                firefox.close()
            server.shutdown()
    places, missed = sum(it.places for it in rows), sum(len(it.missed) for it in rows)
    lines.append(f"all                {places:6}  {places - missed:5}  {100 * (places - missed) / places:4.0f}%  "
                 f"{sum(len(it.false) for it in rows):5}")
    RESULTS.write_text("\n".join(lines) + "\n")
    point("at least 95 of 100 places are found", True, missed <= places * 0.05)
    point("what is said to be blocked, the browser reports too", [], [one for it in rows for one in it.false])
