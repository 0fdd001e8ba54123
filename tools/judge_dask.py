#!/usr/bin/python3
"""Counts the verdicts on descriptions in files on shared storage, by workers of a dask.distributed cluster.

    tools/judge_dask.py SCHEDULER ORIGIN POLICY FILE..

SCHEDULER is the scheduler's address, as tcp://127.0.0.1:8786. Each FILE has a description a line, as
`guidecerise requests --ndjson` prints them. The workers read POLICY and the files, and run
the program, so all of them have to stand under the same names on all machines. The program is $CSP, or
`csp` on the path of this command, or the repository's ./csp.

Prints how many descriptions are allowed and how many are blocked, and how often each item stands in a
verdict, the most frequent first. The status is 1 where a description is blocked, else 0. Where the program
refuses a part, the command says so and ends with 70. A part that a worker didn't finish is judged by
another one.

It needs Debian's package python3-distributed, which belongs to /usr/bin/python3.
"""

import os
import shutil
import subprocess
import sys
from collections import Counter
from functools import partial
from subprocess import PIPE

try:
    import dask.bag
    from distributed import Client
except ImportError:
    sys.exit("judge_dask.py: this needs dask.distributed (Debian's package python3-distributed)")

BLOCK = "4MiB"  # of a file; a part begins and ends with a line, and a request file has at most 8 MiB
REQUESTS = 10_000  # of a request file, at most


def judge(lines, command):
    """The counts of verdicts and items of one part, which is an iterable of lines."""
    lines = [line for line in lines if line.strip()]
    counts = Counter()
    for start in range(0, len(lines), REQUESTS):
        described = lines[start : start + REQUESTS]
        requests = "[" + ",".join(described) + "]"
        answer = subprocess.run([*command, "/dev/stdin"], input=requests, stdout=PIPE, encoding="utf-8")
        verdicts = answer.stdout.splitlines()
        if answer.returncode > 1 or len(verdicts) != len(described):
            raise ValueError(f"the program refuses a part with status {answer.returncode}: {verdicts[-1:]}")
        for verdict in verdicts:
            counts.update(verdict.split()[1:])
    return counts


def total(counts):
    return sum(counts, Counter())


def main(scheduler, origin, policy, *files):
    launcher = os.path.join(os.path.dirname(os.path.realpath(__file__)), "../csp")
    program = os.environ.get("CSP") or shutil.which("csp") or launcher
    command = [os.path.abspath(program), "judge", origin, os.path.abspath(policy)]
    with Client(scheduler):
        counts = (
            dask.bag.read_text([os.path.abspath(file) for file in files], blocksize=BLOCK)
            .reduction(partial(judge, command=command), total, split_every=16)
            .compute()
        )
    for item, count in sorted(counts.items(), key=lambda pair: (":" in pair[0], -pair[1], pair[0])):
        print(count, item)
    return 1 if counts["blocked"] else 0


if __name__ == "__main__":
    if len(sys.argv) < 5:
        sys.exit("usage: judge_dask.py SCHEDULER ORIGIN POLICY FILE..")
    try:
        sys.exit(main(*sys.argv[1:]))
    except (ValueError, OSError) as fault:
        print(f"judge_dask.py: {fault}", file=sys.stderr)
        sys.exit(70)
