import json
import subprocess


def guidecerise(*words):
    """The answer to these words. Where there is none, that is an error."""
    said = subprocess.run(["guidecerise", *words, "--json"], stdout=subprocess.PIPE, timeout=60).stdout
    told = json.loads(said)
    if "refusal" in told:
        raise ValueError(told["refusal"]["problem"])
    return told["answer"]


for difference in guidecerise("differ", "https://a.example", "examples/weaker/new.txt", "examples/weaker/old.txt"):
    print(difference["directive"], difference["url"])
