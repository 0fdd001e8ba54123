"""A stream of descriptions whose verdicts are known, and a cluster of dask.distributed on this machine."""

import json
import os
import subprocess
import sys
import tempfile
import time
from collections import Counter
from pathlib import Path

from .trial import ENVIRONMENT, ORIGIN, PROGRAM, TOOLS, point

HOSTS = " ".join(f"https://s{at}.example" for at in range(100))
POLICY = f"Content-Security-Policy: default-src 'none'; img-src https://*.img.example; script-src {HOSTS}\n"
KINDS = (
    ("image", "https://h{}.img.example/{}.png"),  # all allowed
    ("script", "https://s{}.example/{}.js"),  # allowed where the host is one of the first hundred
    ("font", "https://f{}.example/{}"),  # none allowed
)


def write_stream(path, count):
    """Writes so many descriptions, one a line, and gives the counts that their verdicts have."""
    counts = Counter()
    with open(path, "w") as file:
        for at in range(count):
            destination, url = KINDS[at % 3]
            host = at // 3 % 200
            url = url.format(host, at)
            file.write(f'{{"kind":"fetch","destination":"{destination}","url":"{url}"}}\n')
            if destination == "image" or destination == "script" and host < 100:
                counts["allowed"] += 1
            else:
                directive = (
                    "script-src-elem/script-src" if destination == "script" else "font-src/default-src"
                )
                counts.update(["blocked", "0:enforce:" + directive])
    return dict(counts)


def wait_for(what, seconds=300):
    end = time.monotonic() + seconds
    while not what():
        if time.monotonic() > end:
            sys.exit("cluster: the cluster doesn't come up")
        time.sleep(0.05)


class Cluster:
    """A scheduler and two workers on the loopback address, and a log of the files that they began."""

    def __init__(self, folder, program):
        self.folder = Path(folder)
        self.parts = (
            self.folder / "parts"
        )  # a line for each call of the program: the number of the worker's process
        self.parts.touch()
        self.program = self.folder / "csp"
        self.program.write_text(f'#!/bin/sh\necho "$PPID" >>{self.parts}\nexec {program} "$@"\n')
        self.program.chmod(0o755)
        told = self.folder / "scheduler.json"
        words = ("--host", "127.0.0.1", "--port", "0", "--scheduler-file", str(told))
        self.scheduler = self.start("dask-scheduler", *words)
        wait_for(told.exists)
        self.address = json.loads(told.read_text())["address"]
        words = ("--host", "127.0.0.1", "--nthreads", "1", "--no-nanny", "--local-directory", str(folder))
        self.workers = [self.start("dask-worker", self.address, *words) for _ in range(2)]

    def start(self, *words):
        with open(self.folder / "log", "a") as log:
            return subprocess.Popen([*words, "--no-dashboard"], stdout=log, stderr=log)

    def begun(self):
        """How many request files each worker began."""
        return Counter(int(line) for line in self.parts.read_text().split())

    def end(self):
        for process in (*self.workers, self.scheduler):
            process.kill()
            process.wait()


class Stream:
    """A file of descriptions, one a line, the policy that decides them, and what their verdicts count."""

    def __init__(self, folder, count):
        self.file, self.policy, self.count = f"{folder}/stream", f"{folder}/policy", count
        self.expected = write_stream(self.file, count)
        Path(self.policy).write_text(POLICY)


MILLION = 1_000_000


def a_million_on_this_machine(count=MILLION):
    """A stream, one request file at a time, and then as many at a time as there are processors."""
    with tempfile.TemporaryDirectory() as folder:
        stream = Stream(folder, count)
        for jobs in (1, os.cpu_count()):
            name = f"tools/many, {jobs} at a time"
            start = time.monotonic()
            with open(stream.file) as given:
                words = [TOOLS / "many", ORIGIN, stream.policy]
                environment = {**ENVIRONMENT, "PARALLEL": f"-j{jobs}"}
                done = subprocess.run(
                    words, stdin=given, stdout=subprocess.PIPE, encoding="utf-8", env=environment
                )
            print(f"{name}: {time.monotonic() - start:.1f} s", flush=True)
            came = Counter(word for line in done.stdout.splitlines() for word in line.split()[1:])
            point(f"{name}: the counts", (1, stream.expected), (done.returncode, dict(came)))


def a_million_on_a_cluster(count=MILLION):
    """The stream on two workers, and then on two of which one is ended in the middle."""
    enough = 0  # request files, as many as were begun where no worker was ended
    for is_ended in (False, True):
        name = "tools/judge_dask.py, two workers" + ", one of them ended" * is_ended
        with tempfile.TemporaryDirectory(ignore_cleanup_errors=True) as folder:
            stream, cluster = Stream(folder, count), Cluster(folder, PROGRAM)
            try:
                start = time.monotonic()
                words = [TOOLS / "judge_dask.py", cluster.address, ORIGIN, stream.policy, stream.file]
                environment = {**ENVIRONMENT, "CSP": str(cluster.program)}
                counting = subprocess.Popen(words, stdout=subprocess.PIPE, encoding="utf-8", env=environment)
                before = end_one(cluster, count // 50_000) if is_ended else None
                output, _ = counting.communicate()
                print(f"{name}: {time.monotonic() - start:.1f} s", flush=True)
                came = {item: int(number) for number, item in (line.split() for line in output.splitlines())}
                point(f"{name}: the counts", (1, stream.expected), (counting.returncode, came))
                enough = enough or sum(cluster.begun().values())
                tell_parts(name, cluster, before, enough)
            finally:
                cluster.end()


def end_one(cluster, begun):
    """Ends the first worker once it has begun so many request files; how many each one had begun."""
    ended = cluster.workers[0]
    wait_for(lambda: cluster.begun()[ended.pid] >= begun)
    ended.kill()
    ended.wait()
    return cluster.begun()


def tell_parts(name, cluster, before, enough):
    """Prints how many request files were begun; a point, where a worker was ended: that was in the middle."""
    after = cluster.begun()
    print(f"{name}: {sum(after.values())} request files begun, of which {enough} were enough")
    if before:
        ended = cluster.workers[0].pid
        print(f"{name}: it had begun {before[ended]} of {sum(before.values())}")
        in_the_middle = 0 < before[ended] == after[ended] and sum(before.values()) < enough
        is_begun_anew = sum(after.values()) > enough
        point(f"{name} in the middle, and what it had is begun anew", (True, True), (in_the_middle, is_begun_anew))
