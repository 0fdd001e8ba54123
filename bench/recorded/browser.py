"""A headless Chromium, and what its network did as the developer tools export it, as a HAR.

The browser is steered through a pair of pipes, by its DevTools protocol.
"""

import json
import os
import queue
import re
import shutil
import subprocess
import threading
import time
from datetime import datetime, timezone

ENDS = {"responseReceived", "responseReceivedExtraInfo", "loadingFinished", "loadingFailed"}


class Chromium:
    """A headless Chromium, and the events of its network."""

    def __init__(self, profile, *options):
        program = shutil.which("chromium") or exit(
            "browser: this needs chromium (Debian's package chromium)"
        )
        commands, answers = os.pipe(), os.pipe()  # in the browser their ends are the descriptors 3 and 4
        words = [program, "--headless=new", "--no-sandbox", "--disable-gpu", "--no-first-run"]
        words += [
            "--disable-background-networking",
            "--disable-site-isolation-trials",
            "--remote-debugging-pipe",
        ]
        self.process = subprocess.Popen(
            [
                "bash",
                "-c",
                f'exec "$@" 3<&{commands[0]} 4>&{answers[1]}',
                "-",
                *words,
                *options,
                f"--user-data-dir={profile}",
            ],
            pass_fds=(commands[0], answers[1]),
            stdout=subprocess.DEVNULL,
            stderr=subprocess.DEVNULL,
        )
        os.close(commands[0])
        os.close(answers[1])
        self.commands = os.fdopen(commands[1], "wb", 0)
        self.answers = os.fdopen(answers[0], "rb")
        self.messages = queue.Queue()
        self.events = []
        self.sent = 0
        threading.Thread(target=self.read, daemon=True).start()

    def read(self):
        """Puts what the browser writes, texts that end in a zero byte, into the queue."""
        rest = b""
        while piece := self.answers.read1(1 << 16):
            *whole, rest = (rest + piece).split(b"\0")
            for text in whole:
                self.messages.put(json.loads(text))

    def ask(self, method, session=None, **params):
        """The result of a command. The events before it are kept."""
        self.sent += 1
        command = {"id": self.sent, "method": method, "params": params}
        if session:
            command["sessionId"] = session
        self.commands.write(json.dumps(command).encode() + b"\0")
        while True:
            message = self.messages.get(timeout=30)
            if message.get("id") == self.sent:
                return message.get("result")
            self.events.append(message)

    def settle(self, most=60, quiet=5):
        """Keeps the events until each request is answered or failed and so many seconds are quiet."""
        end = time.monotonic() + most
        while time.monotonic() < end:
            try:
                self.events.append(self.messages.get(timeout=quiet))
            except queue.Empty:
                if not self.under_way():
                    return

    def under_way(self):
        """The requests that were sent, and neither answered nor failed."""
        sent = set()
        for event in self.events:
            name = event.get("method", "").removeprefix("Network.")
            if name == "requestWillBeSent":
                sent.add(event["params"]["requestId"])
            elif name in ENDS and event["params"].get("statusCode") != 302:  # after which a next hop may come
                sent.discard(event["params"]["requestId"])
        return sent


class Recorder:
    """The entries of a HAR, made of the events of a network as the developer tools make them."""

    def __init__(self, events):
        self.hops = {}  # by request: its entries
        self.sent = {}  # by request: the header lists that were sent, one a hop
        self.answered = {}  # by request: the statuses and header lists that were answered
        self.blocked = set()  # the requests that a policy blocked
        for event in events:
            name = event.get("method", "").removeprefix("Network.")
            if handler := getattr(self, name, None):
                handler(**event["params"])

    def requestWillBeSent(
        self, requestId, request, wallTime, initiator, type="Other", redirectResponse=None, **_
    ):
        hops = self.hops.setdefault(requestId, [])
        if redirectResponse:
            self.answer(hops[-1], redirectResponse)
        elif hops:
            return  # the next hop of a redirect, which was blocked: the tools pass over it too
        kind = {"CSPViolationReport": "csp-violation-report"}.get(type, type.lower())
        hops.append(entry(request["url"], request["method"], kind, initiator, wallTime))

    def webSocketCreated(self, requestId, url, initiator=None, **_):
        one = entry(url, "GET", "websocket", initiator or {"type": "other"}, time.time())
        self.hops[requestId] = [one]

    def requestWillBeSentExtraInfo(self, requestId, headers, **_):
        self.sent.setdefault(requestId, []).append(headers)

    def responseReceivedExtraInfo(self, requestId, statusCode, headers, **_):
        self.answered.setdefault(requestId, []).append({"status": statusCode, "headers": headers})

    def responseReceived(self, requestId, response, **_):
        if requestId in self.hops:
            self.answer(self.hops[requestId][-1], response)

    def loadingFailed(self, requestId, blockedReason=None, **_):
        if blockedReason == "csp":
            self.blocked.add(requestId)

    def answer(self, one, response):
        """Writes an answer into an entry."""
        headers = {name.lower(): value for name, value in response["headers"].items()}
        media = response.get("mimeType") or headers.get("content-type", "x-unknown")
        one["response"] |= {"status": response["status"], "headers": pairs(response["headers"])}
        one["response"] |= {
            "content": {"size": 0, "mimeType": media},
            "redirectURL": headers.get("location", ""),
        }

    def har(self, body_of=lambda request: None):
        """The recording. `body_of` gives the text of an answer, where there is one."""
        for request, hops in self.hops.items():
            for one, headers in zip(hops, self.sent.get(request, [])):
                one["request"]["headers"] = pairs(headers)
            for one, answer in zip(hops, self.answered.get(request, [])):
                if one["response"]["status"] == 0:
                    self.answer(one, answer)
            content = hops[-1]["response"]["content"]
            if re.search("html|javascript|css", content["mimeType"]) and (text := body_of(request)):
                content["text"] = text
        log = {"version": "1.2", "creator": {"name": "bench/browser.py", "version": "1"}, "pages": []}
        entries = [one for hops in self.hops.values() for one in hops]  # of which the tools export no blob:
        return {"log": {**log, "entries": [one for one in entries if re.match("(http|ws)s?:", one["request"]["url"])]}}


def pairs(headers):
    return [{"name": name, "value": value} for name, value in headers.items()]


def entry(url, method, kind, initiator, wall_time):
    """An entry of which no answer is known as yet."""
    started = datetime.fromtimestamp(wall_time, timezone.utc).isoformat().replace("+00:00", "Z")
    answer = {
        "status": 0,
        "headers": [],
        "content": {"size": 0, "mimeType": "x-unknown"},
        "redirectURL": "",
    }
    return {
        "_initiator": initiator,
        "_resourceType": kind,
        "startedDateTime": started,
        "request": {"method": method, "url": url, "headers": []},
        "response": answer,
    }
