"""The tasks for which people come, by clicks and keys, with the files of a shop of four pages."""

import json

from recorded.trial import TOP, point

from .person import Person

SHOP = TOP / "bench/recorded/shop"
PAGES = [SHOP / f"{it}.html" for it in ("index", "product", "checkout", "account")]
SELECTED = "document.querySelector('[role=tab][aria-selected=true]').id"
# The groups of an answer, as a badge, a directive, and what with how often
GROUPS = "[...document.querySelectorAll('#answers .group .head')].map(it => it.textContent)"


def header(name):
    lines = (TOP / f"bench/recorded/headers/{name}.txt").read_text()
    return next(it for it in lines.splitlines() if it.startswith("content-security-policy:"))


def value(name):
    return header(name).partition(": ")[2]


def points(kind):
    person = Person(kind)
    try:
        for task in (
            example,
            by_keys,
            kept,
            blocked,
            one_request,
            attacker,
            weaker,
            make,
            reports,
            framed,
            forms,
            stale,
            copies,
            links,
        ):
            task(person)
        point(f"{kind.name}: the browser complains of nothing", [], person.browser.complaints())
    finally:
        person.browser.close()


def named(person, text):
    return f"{person.browser.name}: {text}"


def example(person):
    seen = person.browser.run(
        "[document.getElementById('example').checkVisibility(), document.querySelectorAll('#answers .says').length]"
    )
    point(named(person, "the first answer is about an example, which is called one"), [True, 1], seen)
    own = person.browser.run("document.querySelector('#own .sentence').textContent")
    point(named(person, "the page's own policy blocks nothing of the page"), "None of 5 requests is blocked.", own)


def by_keys(person):
    browser, came = person.browser, []
    browser.run("document.getElementById('blocked').focus()")
    for key in ("ArrowRight", "End", "ArrowRight", "ArrowLeft", "Home"):
        browser.key(key)
        came.append(browser.run(SELECTED))
    point(
        named(person, "arrows, Home and End go through the questions"),
        ["attacker", "more", "blocked", "more", "blocked"],
        came,
    )
    browser.run("document.getElementById('headers').focus()")
    person.write("#headers", "Content-Security-Policy: img-src *")
    came = person.does(lambda: browser.key("Enter", ctrl=True))
    point(named(person, "Ctrl+Enter asks"), "None of 10 requests is blocked.", came)


def kept(person):
    """What a person wrote over the example stays when the rest of it goes."""
    told = "[document.getElementById('headers').value, document.getElementById('example').hidden]"
    person.open(PAGES[0])
    point(
        named(person, "what was written stays when the example goes"),
        ["Content-Security-Policy: img-src *", True],
        person.browser.run(told),
    )
    person.restore("blocked", {"headers": ""})


def blocked(person):
    """The shop under a strict policy. The code in its pages was counted by hand: 7 scripts have no nonce."""
    person.open(*PAGES)
    person.write("#origin", "https://shop.test")
    person.paste(header("strict"))
    groups = person.browser.run(GROUPS)
    for what in (
        "blocked script-src event handler × 16",
        "blocked script-src inline script × 7",
        "blocked script-src javascript: URL × 3",
    ):
        point(named(person, f"of four pages of HTML: {what}"), True, what in groups)
    point(named(person, "each with its line"), True, "product.html, line " in person.answer)
    point(named(person, "and the answer isn't good news"), "bad", person.mood)


def one_request(person):
    browser = person.browser
    person.restore("blocked", {"headers": "Content-Security-Policy: script-src 'self' https://cdn.example/a/"})
    browser.click("#one summary")
    browser.fill("#one-of", "https://cdn.example/b.js")
    person.does(lambda: browser.click("#one-add"))
    point(
        named(person, "one request, and what nearly allows it"),
        True,
        "https://cdn.example/a/ would allow it, but the path is another" in person.answer,
    )
    point(
        named(person, "and what would allow it"),
        True,
        "To allow it: add https://cdn.example to script-src." in person.answer,
    )


def attacker(person):
    """What markup can do under the shop's old policy, and that a pasted value is enough."""
    person.restore("attacker", {"origin": "https://shop.test"})
    person.paste(value("old"))
    groups = person.browser.run(GROUPS)
    for what in ("run a <script> of its own", "run an event handler, as <img onerror>", "show this page in a frame"):
        point(named(person, f"under the old policy an attacker could {what}"), True, any(what in it for it in groups))
    point(named(person, "and the answer is bad news"), "bad", person.mood)


def weaker(person):
    """From the old policy to the strict one, and back. The headers stay as one goes from question to question."""
    person.choose("weaker")
    person.paste(header("strict"))
    rows = "[...document.querySelectorAll('#answers tbody tr')].map(it => it.innerText.replace(/\\s+/g, ' '))"
    table = person.browser.run(rows)
    point(
        named(person, "the headers stayed, and the pasted ones are the new"),
        value("old"),
        person.browser.run("document.getElementById('headers').value"),
    )
    point(
        named(person, "the strict policy is stricter about handlers"),
        True,
        any(it.startswith("script-src-attr stricter") for it in table),
    )
    person.restore("weaker", {"headers": header("strict"), "newer": header("old")})
    point(named(person, "and the way back is weaker"), "bad", person.mood)


def make(person):
    person.restore("blocked", {"origin": "https://shop.test"})
    person.open(*PAGES)
    person.choose("make")
    policy = person.browser.run("document.querySelector('#answers pre').textContent")
    point(
        named(person, "a policy for four pages names the hosts"),
        True,
        "https://js.paywell.test" in policy and "'self'" in policy,
    )
    point(
        named(person, "and is never good news, since something is left to do"), True, person.mood in ("warn", "bad")
    )
    person.does(
        lambda: (
            person.browser.click("input[name=form][value=strict]"),
            person.browser.click("#given button[type=submit]"),
        )
    )
    policy = person.browser.run("document.querySelector('#answers pre').textContent")
    point(named(person, "a strict one names no host for scripts"), True, "'strict-dynamic'" in policy)


def reports(person):
    """Reports of two hosts, one of them noise, and what would end them."""
    body = {
        "csp-report": {
            "effective-directive": "img-src",
            "blocked-uri": "https://img.example/a.png",
            "document-uri": "https://shop.test/",
            "disposition": "enforce",
        }
    }
    noise = {
        "csp-report": {
            "effective-directive": "script-src-elem",
            "blocked-uri": "chrome-extension",
            "document-uri": "https://shop.test/",
        }
    }
    person.restore("reports", {"headers": "Content-Security-Policy: img-src 'self'"})
    came = person.paste("\n".join(json.dumps(it) for it in [body] * 3 + [noise]))
    point(named(person, "reports are grouped"), "The headers would still report 3 of 3 violations.", came)
    point(named(person, "noise stands apart"), True, "chrome-extension 1" in person.answer)
    point(
        named(person, "and what would end them is told"),
        True,
        "1 addition would end 3 of 3 violations." in person.answer,
    )


def framed(person):
    person.restore("framed", {"headers": "X-Frame-Options: DENY\nContent-Security-Policy: frame-ancestors 'none'"})
    point(
        named(person, "a page that forbids it may not be framed"),
        "No: frame-ancestors doesn't allow https://portal.example to frame this page.",
        person.sentence,
    )


def forms(person):
    """What people paste as headers, and the words in which the page says what it took it for."""
    strict = "default-src 'self'; img-src *"
    given = {
        strict: "read as a bare value of an enforced policy",
        "default-src 'self'\nimg-src *": "read as a bare value of an enforced policy, in lines 1 to 2",
        f'<meta http-equiv="Content-Security-Policy" content="{strict}">': "read as a meta element",
        f'add_header Content-Security-Policy "{strict}" always;': "read as an nginx directive",
        f'Header always set Content-Security-Policy "{strict}"': "read as an Apache directive",
        f"HTTP/2 200\ncontent-security-policy: {strict}\n\n": "read as a header line",
    }
    for text, said in given.items():
        person.restore("blocked", {"headers": ""})
        person.paste(text)
        person.browser.wait("document.getElementById('headers-read').childElementCount > 0")
        point(named(person, said), True, said in person.browser.text("#headers-read"))
    person.paste("default-src 'self' img-src https:")
    point(
        named(person, "a forgotten semicolon is told above the rows"),
        True,
        "img-src names a directive, and counts as a source here: is a semicolon missing before it?" in person.answer,
    )


def stale(person):
    person.restore("blocked", {"headers": "Content-Security-Policy: img-src 'self'"})
    person.write("#headers", "Content-Security-Policy: img-src *")
    grey = "document.querySelector('#answers > .stale') !== null"
    before = person.browser.run(grey)
    person.ask()
    point(
        named(person, "an answer is grey once something was changed, until it is asked anew"),
        (True, False),
        (before, person.browser.run(grey)),
    )


def copies(person):
    browser, came = person.browser, {}
    page = "<!doctype html><html><head></head><body><img src='https://a.example/x.png'></body></html>"
    person.restore(
        "blocked",
        {
            "headers": "Content-Security-Policy: img-src 'self'",
            "files": [{"name": "index.html", "kind": "html", "text": page, "url": "https://shop.example/"}],
        },
    )
    browser.run(
        "void ((window.wrappedJSObject ?? window).navigator.clipboard.writeText = "
        "async text => { document.body.dataset.copy = text; })"
    )
    for it in ("text", "Markdown", "JSON"):
        browser.run("void delete document.body.dataset.copy")
        browser.click(f"#answers [data-as={it}]")
        browser.wait("document.body.dataset.copy !== undefined")
        came[it] = browser.run("document.body.dataset.copy")
    begins = [
        came["text"].startswith("1 of 1 request is blocked."),
        came["Markdown"].startswith("**1 of 1 request is blocked.**"),
    ]
    blocked = json.loads(came["JSON"])["answer"]["pages"][0]["items"][0]["blocked"]
    point(named(person, "an answer is copied as text, Markdown and JSON"), [True, True, True], [*begins, blocked])


def links(person):
    browser = person.browser
    person.restore(
        "weaker", {"headers": "Content-Security-Policy: img-src é", "newer": "Content-Security-Policy: img-src *"}
    )
    browser.click("#link")
    address = browser.run("location.href")
    browser.open("about:blank")
    browser.open(address)
    browser.wait("document.body?.dataset.own === 'judged'")
    told = browser.run(
        "[document.querySelector('[role=tab][aria-selected=true]').id, document.getElementById('headers').value]"
    )
    point(
        named(person, "a link brings back the question and what stood in it"),
        ["weaker", "Content-Security-Policy: img-src é"],
        told,
    )
    person.write("#headers", "x" * 9000)
    browser.click("#link")
    point(
        named(person, "what is too long for a link is told"),
        "This is too long for a link: send the files, and the headers as a text.",
        browser.text("#linked"),
    )
