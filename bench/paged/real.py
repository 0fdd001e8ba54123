"""The page beside what Chromium says itself of a shop, which it recorded without a policy."""

import json
import tempfile
from pathlib import Path

from recorded import browser as recording
from recorded.places import PAGES, Visit, recorded, serve
from recorded.trial import point

from .person import Person
from .tasks import header


def entries(visits):
    return [{**one, "pageref": page} for page, visit in zip(PAGES, visits) for one in visit.har["log"]["entries"]]


def made(room):
    """The recording without a policy; of each policy, the recording under it and what the browser told."""
    server = serve(room)
    options = f"--host-resolver-rules=MAP * 127.0.0.2:{server.server_address[1]}", "--ignore-certificate-errors"
    chromium = recording.Chromium(f"{room}/profile", *options)
    try:
        Path(room, "shop.har").write_text(json.dumps(recorded(chromium)))
        for name in ("old", "strict"):
            server.policy = ("Content-Security-Policy", header(name).partition(": ")[2])
            visits = [Visit(chromium, page) for page in PAGES]
            Path(room, f"{name}.har").write_text(json.dumps({"log": {"version": "1.2", "entries": entries(visits)}}))
            Path(room, f"{name}.json").write_text(json.dumps([it for visit in visits for it in visit.seen]))
    finally:
        chromium.process.terminate()
        chromium.process.wait(20)
        server.shutdown()


def told(person, room, name):
    person.restore("blocked", {"headers": header(name)})
    person.open(Path(room, "shop.har"), Path(room, f"{name}.json"))
    count = len(json.loads(Path(room, f"{name}.json").read_text()))
    same = int(
        person.browser.run("document.querySelector('[data-says=browserTells]').textContent")
        .split(": ")[1]
        .split(" ")[0]
    )
    print(f"{person.browser.name}, {name}: {same} of {count} violations are in the answer too")
    point(f"{name}: of what the browser tells, 95 of 100 are in the answer too", True, same >= 0.95 * count)
    point(f"{name}: the answer is no good news", "bad", person.mood)
    person.restore("blocked", {"headers": ""})
    person.open(Path(room, f"{name}.har"))
    begins = person.browser.run("document.querySelector('#answers .says p:nth-child(2)').dataset.says")
    point(
        f"{name}: of a recording under the policy this is said first, and it is no good news",
        ("recordedEnforced", True),
        (begins, person.mood in ("warn", "bad")),
    )


def points(kind):
    with tempfile.TemporaryDirectory(ignore_cleanup_errors=True) as room:
        made(room)
        person = Person(kind)
        try:
            for name in ("old", "strict"):
                told(person, room, name)
        finally:
            person.browser.close()
