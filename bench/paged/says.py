"""Every sentence that the page can show: a case for each, with its words, written by hand, and its colour."""

import json

from recorded.trial import point

from .person import Person, names

SHOP = "https://shop.example/"
ENFORCED, REPORT = "Content-Security-Policy: ", "Content-Security-Policy-Report-Only: "


def html(text, **more):
    return {
        "name": "index.html",
        "kind": "html",
        "text": f"<!doctype html><html><head></head><body>{text}</body></html>",
        "url": SHOP,
        **more,
    }


def requests(text):
    return {"name": "requests.json", "kind": "requests", "text": text}


def events(text):
    return {"name": "console.txt", "kind": "events", "text": text}


IMAGE = '<img src="https://img.example/a.png">'
SCRIPT = "<script>start()</script>"
TOLD = (
    "Refused to load the image 'https://img.example/a.png' because it violates the following Content Security Policy "
    "directive: \"img-src 'self'\"."
)
OTHER = TOLD.replace("a.png", "b.png")
STRICT = "default-src 'none'; base-uri 'none'; form-action 'none'; frame-ancestors 'none'; sandbox"
PROOF = "https://shop.example"

# That a page runs scripts at all is a request of its own, since a sandbox may forbid it.
# Of each: the question, what stands in the page, the colour, the first sentence, and others that are shown
CASES = [
    (
        "blocked",
        {"headers": ENFORCED + "img-src https:", "files": [html(IMAGE)]},
        "good",
        "None of 1 request is blocked.",
        {"noneBlocked", "allowed", "howRead", "matrix"},
    ),
    (
        "blocked",
        {"headers": ENFORCED + "img-src 'self'; script-src 'nonce-a'", "files": [html(IMAGE + SCRIPT + IMAGE)]},
        "bad",
        "3 of 4 requests are blocked.",
        {"someBlocked", "notAllowed", "decides", "toAllow", "orElse"},
    ),
    (
        "blocked",
        {"headers": ENFORCED + "default-src http://img.example", "files": [html('<p style="top: 0">' + IMAGE)]},
        "bad",
        "1 of 2 requests is blocked.",
        {"standsIn", "better"},
    ),
    (
        "blocked",
        {"headers": ENFORCED + "img-src https://img.example:444", "files": [html(IMAGE)]},
        "bad",
        "1 of 1 request is blocked.",
        {"near"},
    ),
    (
        "blocked",
        {"headers": ENFORCED + "script-src 'self'", "files": [html('<script src="/a.js"></script>')]},
        "warn",
        "None of 2 requests is blocked.",
        {"scriptsNotRun"},
    ),
    (
        "blocked",
        {
            "headers": ENFORCED + "script-src 'strict-dynamic' 'nonce-a'",
            "files": [html('<script src="/a.js"></script>')],
        },
        "bad",
        "1 of 2 requests is blocked.",
        {"instead"},
    ),
    (
        "blocked",
        {"headers": REPORT + "img-src 'self'", "files": [html(IMAGE)]},
        "warn",
        "None of 1 request is blocked.",
        {"wouldBlock", "decidesNothing"},
    ),
    ("blocked", {"headers": "", "files": [html(IMAGE)]}, "warn", "None of 1 request is blocked.", {"decidesNothing"}),
    (
        "blocked",
        {
            "headers": ENFORCED + "img-src https:",
            "files": [requests('[{"kind": "fetch", "destination": "image", "url": "https://a.example/"}]')],
        },
        "warn",
        "None of 1 request is blocked.",
        {"inlineNotGiven"},
    ),
    (
        "blocked",
        {"headers": ENFORCED + "img-src 'self'", "files": []},
        "warn",
        "Nothing was given that a page loads or runs, so nothing was judged.",
        {"nothingJudged", "giveAPage"},
    ),
    (
        "blocked",
        {"headers": ENFORCED + "imag-src 'self'; img-src https:", "files": [html(IMAGE)]},
        "good",
        "None of 1 request is blocked.",
        {"marked"},
    ),
    (
        "blocked",
        {"headers": ENFORCED + "img-src 'self'", "files": [html(IMAGE), events(TOLD)]},
        "bad",
        "1 of 1 request is blocked.",
        {"browserTells"},
    ),
    (
        "blocked",
        {"headers": ENFORCED + "img-src 'self'", "files": [html(IMAGE), events(OTHER)]},
        "bad",
        "The browser tells of 1 violation that is not in this answer. Of 1 request that was given, 1 is blocked.",
        {"browserAlone", "toldAlone", "notGiven", "untold"},
    ),
    (
        "blocked",
        {"headers": ENFORCED + "img-src https:", "files": [html(IMAGE), events(TOLD)]},
        "bad",
        "The browser tells of 1 violation that is not in this answer. Of 1 request that was given, 0 are blocked.",
        {"saysOther"},
    ),
    (
        "blocked",
        {"headers": "", "files": [events(TOLD)]},
        "bad",
        "The browser tells of 1 violation. No page was given, so nothing else was judged.",
        {"eventsAlone"},
    ),
    (
        "blocked",
        {"headers": ENFORCED + "img-src 'self'", "files": [html('<img srcset="https://img.example/a.png 2x">')]},
        "bad",
        "1 of 1 request is blocked.",
        {"perhapsBlocked"},
    ),
    (
        "blocked",
        {"headers": ENFORCED + "img-src 'self'", "files": [html(IMAGE), html("", name="b.html", url=SHOP + "b")]},
        "bad",
        "1 of 1 request on 2 pages is blocked.",
        {"byPage"},
    ),
    (
        "attacker",
        {"headers": ""},
        "bad",
        "No headers were given: without a policy, injected markup can do all that a page can.",
        {"noHeaders"},
    ),
    (
        "attacker",
        {"headers": ENFORCED + "upgrade-insecure-requests"},
        "bad",
        "These headers block nothing of what an attacker may try: all of it is possible.",
        {"allPossible", "attackerOf"},
    ),
    (
        "attacker",
        {"headers": ENFORCED + "script-src 'unsafe-inline'; object-src 'none'"},
        "bad",
        None,
        {"runsCode", "possible", "impossible", "because", "stops", "known"},
    ),
    (
        "attacker",
        {"headers": ENFORCED + "script-src 'self'; object-src 'none'"},
        "warn",
        None,
        {"runsHosted", "takes"},
    ),
    (
        "attacker",
        {"headers": ENFORCED + STRICT.replace("base-uri 'none'; ", "")},
        "warn",
        "Injected markup couldn't run code. 2 other things are possible.",
        {"noCode"},
    ),
    (
        "attacker",
        {"headers": ENFORCED + STRICT},
        "good",
        "Nothing of what was tried is possible to injected markup, or to a site that frames the page.",
        {"nothingPossible"},
    ),
    (
        "weaker",
        {"headers": ENFORCED + "img-src 'self'", "newer": ENFORCED + "img-src *"},
        "bad",
        "Weaker: the new headers allow what the old ones block, under img-src.",
        {"weaker", "oneShown", "changed", "same", "attackerChanged", "changeMatrix"},
    ),
    (
        "weaker",
        {"headers": ENFORCED + "img-src 'self'", "newer": ENFORCED + "img-src 'none'"},
        "good",
        "Not weaker: the new headers block all that the old ones block. Two checkers accept the proof.",
        {"notWeaker", "coversAll", "proof", "attackerSame"},
    ),
    (
        "weaker",
        {
            "headers": ENFORCED + "img-src 'self'; require-trusted-types-for 'script'",
            "newer": ENFORCED + "img-src 'self'",
        },
        "bad",
        "Weaker outside the proof: the new headers loosen require-trusted-types-for, which no proof covers.",
        {"loosened", "uncovered"},
    ),
    (
        "weaker",
        {"headers": ENFORCED + "report-uri /a", "newer": ENFORCED + "img-src 'self'"},
        "warn",
        "No answer: the old headers block nothing, so nothing is weaker than they.",
        {"oldNothing"},
    ),
    (
        "weaker",
        {"headers": ENFORCED + "script-src 'nonce-abc'", "newer": ENFORCED + "script-src 'nonce-xyz'"},
        "good",
        "Not weaker: the new headers block all that the old ones block. Two checkers accept the proof.",
        {"noncesRenamed"},
    ),
    (
        "weaker",
        {"headers": ENFORCED + "script-src 'none'", "newer": ENFORCED + "script-src 'nonce-xyz'"},
        "bad",
        None,
        {"noncesUnmatched"},
    ),
    (
        "weaker",
        {"headers": "", "newer": ""},
        "plain",
        "No headers were given: paste them, or drop a recording of the page.",
        {"giveHeaders"},
    ),
    (
        "weaker",
        {"headers": ENFORCED + "img-src 'self'", "newer": ""},
        "plain",
        "No new headers were given: paste them beside the old ones.",
        {"giveNewer"},
    ),
    (
        "make",
        {"files": [html(IMAGE)]},
        "warn",
        "None of 1 request is still blocked by this policy.",
        {"madePolicy", "noneStill"},
    ),
    (
        "make",
        {"files": [html('<p style="top: 0">')]},
        "bad",
        "1 of 1 request is still blocked by this policy.",
        {"someStill", "stillBlocked"},
    ),
    (
        "make",
        {"form": "strict", "headers": ENFORCED + "sandbox allow-scripts allow-same-origin", "files": [html(SCRIPT)]},
        "bad",
        "None of 2 requests is still blocked by this policy, once the nonces are in their places.",
        {"needNonce", "madeShorter", "kept"},
    ),
    (
        "make",
        {"form": "addition", "headers": ENFORCED + "img-src 'self'", "files": [html(IMAGE)]},
        "warn",
        "1 addition would end 1 of 1 violation.",
        {"wouldEnd", "additions", "stillPossible"},
    ),
    (
        "make",
        {"files": []},
        "plain",
        "Nothing was given that a policy could be made from: drop a HAR, HTML or reports.",
        {"nothingToMake"},
    ),
    ("reports", {"files": []}, "plain", "No report was given: drop a log of reports, or paste one.", {"giveReports"}),
    (
        "framed",
        {"headers": ENFORCED + "frame-ancestors 'none'\nX-Frame-Options: DENY"},
        "plain",
        "No: frame-ancestors doesn't allow https://portal.example to frame this page.",
        {"framedByPolicy", "optionsIgnored"},
    ),
    (
        "framed",
        {"headers": ENFORCED + "img-src 'self'\nX-Frame-Options: DENY"},
        "plain",
        "No: X-Frame-Options: deny doesn't allow https://portal.example to frame this page.",
        {"framedByOptions", "optionsDecide"},
    ),
    (
        "framed",
        {"headers": ENFORCED + "frame-ancestors https://portal.example"},
        "plain",
        "Yes: frame-ancestors allows https://portal.example to frame this page, by https://portal.example.",
        {"framedAllowed", "optionsAbsent"},
    ),
    (
        "framed",
        {"headers": REPORT + "frame-ancestors 'none'\nX-Frame-Options: ALLOW-FROM https://portal.example"},
        "plain",
        "Yes: no enforced frame-ancestors keeps https://portal.example from framing this page.",
        {"framedUndecided", "framedReported", "optionsVoid"},
    ),
    (
        "framed",
        {"headers": ENFORCED + "img-src 'self'", "embedder": "portal"},
        "warn",
        'There is no answer. No address of a page: "portal"',
        {"refused"},
    ),
    (
        "shorter",
        {"headers": ENFORCED + "img-src https: https://a.example"},
        "warn",
        "Shorter by 18 bytes: these headers allow exactly the same in browsers of today.",
        {"shorter", "oldBrowsers", "shorterHeaders", "needed"},
    ),
    (
        "shorter",
        {"headers": ENFORCED + "img-src https:"},
        "warn",
        "Nothing can be left out: no shorter headers were found that allow exactly the same.",
        {"noShorter"},
    ),
    (
        "proof",
        {"headers": ENFORCED + "img-src 'self'", "newer": ENFORCED + "img-src 'none'"},
        "plain",
        'No proof was given: paste one, as "Is the new one weaker?" shows it.',
        {"giveProof"},
    ),
    (
        "required",
        {"headers": ENFORCED + "img-src 'none'", "required": ENFORCED + "img-src 'self'"},
        "good",
        "The response is shown: it blocks all that the required policy blocks. This is proved.",
        {"requiredServed", "embeddedBy"},
    ),
    (
        "required",
        {"headers": ENFORCED + "img-src *", "required": ENFORCED + "img-src 'self'"},
        "bad",
        None,
        {"requiredRefused"},
    ),
    (
        "required",
        {"headers": "Allow-CSP-From: *\n" + ENFORCED + "img-src *", "required": ENFORCED + "img-src 'self'"},
        "warn",
        "The response is shown, and this is enforced on it too, as it lets the embedder: img-src 'self'",
        {"requiredAdded"},
    ),
    (
        "required",
        {"headers": ENFORCED + "img-src *", "required": ENFORCED + "report-uri /a"},
        "warn",
        "No answer: the required policy blocks nothing, so that each response meets it.",
        {"requiredNothing"},
    ),
]

def report(blocked):
    body = {"effective-directive": "img-src", "blocked-uri": blocked, "document-uri": SHOP, "disposition": "enforce"}
    return json.dumps({"csp-report": body})


IMAGES = report("https://a.example/x")
LOGS = [
    ('{"effective-directive": 7}', "", "warn", "No report stands in this: it says nothing of what is blocked.",
     {"noReport", "notAllRead"}),
    (report("chrome-extension"), "", "warn", "No violation of the pages themselves was reported.", {"noViolation"}),
    (IMAGES, "", "warn", "1 violation of 1 kind.", {"violations", "reported", "onPages", "ofBrowsers"}),
    (IMAGES, ENFORCED + "img-src 'self'", "bad", "The headers would still report 1 of 1 violation.",
     {"stillReports", "withAdditions"}),
    (IMAGES, ENFORCED + "img-src https:", "warn", "The headers would still report 0 of 1 violation.", {"endedNotAll"}),
]


def told(person, name, mood, sentence, also):
    """Whether an answer is the expected one; of a sentence that isn't written here, only the name and the colour."""
    came = person.sentence
    point(name, (mood, sentence or came, set()), (person.mood, came, also - set(person.browser.run(SHOWN))))


SHOWN = "[...document.querySelectorAll('#answers [data-says]')].map(it => it.dataset.says)"


def cases(person):
    for number, (question, state, mood, sentence, also) in enumerate(CASES, 1):
        person.restore(question, state)
        told(person, f"case {number}, {question}: {sentence or ', '.join(sorted(also))}", mood, sentence, also)


def logs(person):
    for log, headers, mood, sentence, also in LOGS:
        person.restore("reports", {"headers": headers})
        person.paste(log)
        told(person, f"a log: {sentence}", mood, sentence, also)


def proofs(person):
    """A proof that the page made, the same with another pair, and one with a broken line."""
    pair = {"headers": ENFORCED + "img-src 'self'", "newer": ENFORCED + "img-src 'none'"}
    person.restore("weaker", pair)
    proof = person.browser.run("document.querySelector('#answers details pre').textContent")
    person.restore("proof", {**pair, "proof": proof})
    told(
        person,
        "a right proof",
        "good",
        "Accepted by both checkers: the new headers block all that the old ones block.",
        {"accepted", "checkedFor"},
    )
    person.restore("proof", {"headers": pair["newer"], "newer": pair["headers"], "proof": proof})
    told(person, "the proof of another pair", "bad", None, {"rejected"})
    person.restore("proof", {**pair, "proof": proof, "headers": ENFORCED + "report-uri /a"})
    point("no proof is good news where the old headers block nothing", False, person.mood == "good")


def points(kind):
    person = Person(kind)
    try:
        cases(person)
        logs(person)
        proofs(person)
        page(person)
        point("every sentence of page/sentences.js was shown", [], sorted(names() - person.seen))
        point("and no other", [], sorted(person.seen - names()))
    finally:
        person.browser.close()


RECORDING = (
    '{"log": {"entries": [{"pageref": "p", "startedDateTime": "2026-01-01T00:00:00.000Z", "_resourceType": "document", '
    '"request": {"method": "GET", "url": "https://shop.example/", "headers": []}, "response": {"status": 200, "headers": '
    '[{"name": "content-security-policy", "value": "img-src \'self\'"}], "redirectURL": "", "content": '
    '{"mimeType": "text/html", "text": "<!doctype html><p>"}}}]}}'
)


def page(person):
    """What is said of what is given, and of links."""
    browser = person.browser
    person.restore("blocked", {"headers": ""})
    person.paste(RECORDING)
    point("a recording under an enforced policy is no good news", "warn", person.mood)
    person.paste(ENFORCED + "img-src 'self'")
    point("and under other headers neither", "warn", person.mood)
    person.write("#headers", ENFORCED + "img-src *")
    person.paste("neither headers nor a page")
    person.paste('<!doctype html><html><head></head><body><img src="/a"></body></html>')
    person.paste('{"log": {"entries": 7}}')
    browser.run("void (document.querySelector('#answers').dataset.tried = 'yes')")
    browser.run("void (navigator.clipboard.writeText = async text => { window.copied = text; })")
    for it in ("text", "Markdown", "JSON"):
        browser.click(f"#answers [data-as={it}]")
        browser.wait("document.querySelector('#answers .copies [data-says=copied]') !== null")
    person.note()
    browser.click("#link")
    person.note()
    person.paste('{"csp-report": {"effective-directive": "img-src", "blocked-uri": "https://a.example/x"}}')
    browser.click("#link")
    person.note()
    person.write("#headers", ENFORCED + "img-src " + " ".join(f"https://h{n}.example" for n in range(600)))
    browser.click("#link")
    person.note()
    person.does(
        lambda: browser.run(
            "void (document.querySelector('#given').requestSubmit(), document.getElementById('stop').click())"
        )
    )
