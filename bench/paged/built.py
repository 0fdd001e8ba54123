"""Whether the page's file is what the sources build, by the checksums in dist/built-of."""

import subprocess

from recorded.trial import TOP, point


def points():
    print((TOP / "dist/built-of").read_text().split("csp ", 1)[0], end="")
    told = subprocess.run([TOP / "packaging/shipped"], capture_output=True, text=True).stdout.splitlines()
    for line in told:
        name, found = line.split(": ", 1)
        point(name, "of these sources", found)
