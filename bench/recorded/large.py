"""How long the command takes for a large recording, and how much memory for a million reports."""

import json
import os
import subprocess
import tempfile
import time
from pathlib import Path

from .trial import GUIDECERISE, point

BYTES = 10_000_000
MILLION = 1_000_000
MOST_MEMORY = 200_000  # KiB
POLICY = "default-src 'self'; img-src 'self' https://img.example.net; script-src 'self'; style-src 'self'"


def entry(at, url, to, body, media):
    headers = [{"name": "Sec-Fetch-Dest", "value": to}, {"name": "Referer", "value": "https://shop.example/"}]
    return {
        "startedDateTime": f"2026-01-01T00:00:{at % 60:02}.{at:06}Z", "pageref": "page",
        "request": {"url": url, "method": "GET", "headers": headers},
        "response": {"status": 200, "headers": [], "content": {"mimeType": media, "text": body, "size": len(body)}},
    }


def recording():
    """A HAR of so many bytes: a page of HTML with inline code, and what it loads, with content."""
    parts = "".join(f'<p style="top: {at}px" onclick="go({at})"><img src="/i/{at}.png">text</p>\n' for at in range(1500))
    page = f"<!DOCTYPE html><title>x</title><script>start()</script>{parts}"
    entries = [entry(0, "https://shop.example/", "document", page, "text/html")]
    entries += [entry(at + 1, f"https://shop.example/i/{at}.png", "image", "", "image/png") for at in range(1500)]
    size = sum(len(json.dumps(one)) for one in entries)
    script = "function f(a) { return a + 1; }\n" * 3000
    at = len(entries)
    while size < BYTES:
        entries.append(entry(at, f"https://shop.example/{at}.js", "script", script, "text/javascript"))
        size += len(json.dumps(entries[-1]))
        at += 1
    return json.dumps({"log": {"version": "1.2", "entries": entries}})


def measured(*words, given=None):
    """The seconds that the command takes, the most KiB that it holds, its status and its output."""
    before = time.monotonic()
    with subprocess.Popen([*GUIDECERISE, *words], stdin=given, stdout=subprocess.PIPE, stderr=subprocess.PIPE) as running:
        output = running.stdout.read()
        _, status, usage = os.wait4(running.pid, 0)
        running.returncode = status >> 8
    return time.monotonic() - before, usage, running.returncode, output.decode()


def a_large_recording():
    with tempfile.TemporaryDirectory() as folder:
        har, headers = Path(folder) / "large.har", Path(folder) / "headers.txt"
        har.write_text(recording())
        headers.write_text(f"Content-Security-Policy: {POLICY}\n")
        _, begin, _, _ = measured("--version")
        seconds, usage, status, output = measured("judge", str(har), "--headers", str(headers))
        spent = usage.ru_utime + usage.ru_stime - begin.ru_utime - begin.ru_stime
        print(f"a HAR of {har.stat().st_size / 1e6:.1f} MB: {seconds:.2f} s by the clock, of which the processor worked")
        print(f"{spent:.2f} s beyond the start of Node")
        point("a HAR of 10 MB: what is blocked", (1, True), (status, "3,001 of" in output))
        point("a HAR of 10 MB within a second beyond the start of Node", True, spent < 1)


def report(at):
    body = {"document-uri": f"https://shop.example/p/{at % 50}", "effective-directive": "img-src", "disposition": "enforce",
            "violated-directive": "img-src", "original-policy": POLICY, "blocked-uri": f"https://h{at % 90_000}.example/x.png",
            "line-number": at % 40 + 1, "column-number": 7, "source-file": f"https://shop.example/p/{at % 50}"}
    return json.dumps({"csp-report": body}) + "\n"


def a_million_reports():
    with tempfile.TemporaryDirectory() as folder:
        file = Path(folder) / "reports.ndjson"
        with open(file, "w") as log:
            log.writelines(report(at) for at in range(MILLION))
        seconds, usage, status, output = measured("reports", str(file))
        print(f"a million reports, {file.stat().st_size / 1e6:.0f} MB: {seconds:.1f} s, {usage.ru_maxrss / 1000:.0f} MB of memory")
        point("a million reports: each is counted", (0, True), (status, "1,000,000 violations" in output))
        point("a million reports below 200 MB", True, usage.ru_maxrss < MOST_MEMORY)
