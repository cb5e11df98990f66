"""Runs every call of ./fristen that a front page shows, and holds what it prints against what stands below it.

    python3 -B checks/examples.py

The last line is as in sources.py: a page without examples is a fault.
"""

import re
import shlex
import subprocess
import sys
from pathlib import Path

import sources

# In English for engineers, in German for the shift lead.
PAGES = ("README.md", "LIESMICH.md")
CALL = re.compile(r" {4}(?:\$ )?(\./fristen .*)")


def indented(text):
    """The lines of a page, those of a fenced block as of one that is indented."""
    fenced = False
    for line in text.split("\n"):
        if line.startswith("```"):
            fenced = not fenced
            yield ""
        else:
            yield "    " + line if fenced else line


def shown(text):
    """The line, the call and the output of each example. An output ends at the first line that is not indented."""
    found, below = [], False
    for number, line in enumerate(indented(text), 1):
        call = CALL.fullmatch(line)
        if call:
            found.append((number, call[1], []))
            below = True
        elif below and line.startswith("    "):
            found[-1][2].append(line[4:])
        elif below:
            # An empty line may stand between the call and its output.
            below = not line and not found[-1][2]
    return found


def without_end(lines):
    """The lines without the empty ones behind them."""
    return "\n".join(lines).rstrip("\n").split("\n") if lines else lines


def faults_of(root, page, found):
    for line, call, output in found:
        place = f"{page}:{line}: {call}"
        if not output:
            yield f"{place}: no output stands below it"
            continue
        ran = subprocess.run(shlex.split(call), cwd=root, stdout=subprocess.PIPE, encoding="utf-8", check=False)
        printed = ran.stdout.rstrip("\n").split("\n")
        if printed != without_end(output):
            yield f"{place}: prints otherwise, and ends with {ran.returncode}:"
            yield from printed


def examples(root):
    looked_at, faults = 0, []
    for page in PAGES:
        found = shown(sources.read(root, page))
        if not found:
            faults.append(f"{page}: there is no example")
        looked_at += len(found)
        faults += faults_of(root, page, found)
    return looked_at, faults


if __name__ == "__main__":
    sys.exit(sources.main("examples", examples, Path(__file__).resolve().parent.parent))
