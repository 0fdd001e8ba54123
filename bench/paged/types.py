"""The page's scripts, by the types that their comments tell."""

import shutil
import subprocess
import sys

from recorded.trial import TOP, point


def points():
    shutil.which("tsc") or sys.exit("bench/page: tsc is not on the path: apt-get install node-typescript")
    told = subprocess.run(["tsc", "-p", TOP / "page"], capture_output=True, text=True)
    point("tsc accepts the page's scripts", "", told.stdout)
