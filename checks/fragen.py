"""Runs the program `fragen` on inputs that a stored one cannot stand for: in pieces, of any length, without an end.

    python3 -B checks/fragen.py

It needs crates/fragen/out/fragen, which `rt ci` leaves there and `rt run </dev/null` in crates/fragen builds. What is
expected is the original's stored answers: an answer depends on its question alone, so those of the first questions are
the first answers. The last line is as in sources.py.
"""

import os
import subprocess
import sys
import tempfile
import time
from itertools import cycle
from pathlib import Path

import sources

PROGRAM = "crates/fragen/out/fragen"
RECORD, MOST = 32, 65536
# Longer than any run takes; what waits for an end that does not come takes for ever.
SECONDS = 20


def pieces(data, sizes):
    """The data in pieces of these sizes, again and again."""
    at, sizes = 0, cycle(sizes)
    while at < len(data):
        size = next(sizes)
        yield data[at : at + size]
        at += size


def written(program, given, pause, close):
    """What the program writes; None if it does not end, or not well. That it reads no more is no fault."""
    with tempfile.TemporaryFile() as output:
        with subprocess.Popen([program], stdin=subprocess.PIPE, stdout=output, bufsize=0) as running:
            try:
                for piece in given:
                    running.stdin.write(piece)
                    time.sleep(pause)
                if close:
                    running.stdin.close()
            except BrokenPipeError:
                pass
            try:
                status = running.wait(SECONDS)
            except subprocess.TimeoutExpired:
                running.kill()
                return None
        output.seek(0)
        return output.read() if status == 0 else None


def cases(questions):
    """Each case: what it is, the pieces of its input, the pause between them, whether the input ends, its length."""
    sizes = [1, 31, 32, 33, 4095, 4096, 4097]
    yield "in one piece", [questions], 0, True, MOST
    yield "in pieces", pieces(questions, sizes), 0.001, True, MOST
    yield "byte by byte", pieces(questions[: 3 * RECORD], [1]), 0.001, True, 3 * RECORD
    yield "half a record, and later the rest", [questions[:16], questions[16:RECORD]], 0.2, True, RECORD
    longer = questions + questions
    for middle in (0, RECORD, 2 * RECORD, MOST - RECORD, MOST, MOST + RECORD, 2 * MOST):
        for length in range(max(0, middle - 1), min(2 * MOST, middle + 1) + 1):
            yield f"{length} bytes", [longer[:length]], 0, True, length
    yield "too long, and without an end", [longer[: MOST + 1]], 0, False, MOST + 1


def fragen(root):
    program = Path(root, PROGRAM)
    questions = Path(root, "crates/fragen/stdin").read_bytes()
    answers = Path(root, "crates/fragen/stdout").read_bytes()
    if (len(questions), len(answers)) != (MOST, MOST):
        return 1, [f"crates/fragen: {len(questions)} and {len(answers)} bytes are stored, and not {MOST}"]
    looked, faults = 0, []
    for what, given, pause, close, length in cases(questions):
        looked += 1
        is_file = length % RECORD == 0 and length <= MOST
        if written(program, given, pause, close) != (answers[:length] if is_file else b""):
            faults.append(f"{PROGRAM}: {what}: writes otherwise, or does not end")
    looked += 1
    with open(os.devnull, "wb") as unreadable:
        # What it says of that on standard error is its own matter.
        ran = subprocess.run([program], stdin=unreadable, capture_output=True, check=False)
        if ran.stdout:
            faults.append(f"{PROGRAM}: writes something for an input that cannot be read")
    return looked, faults


if __name__ == "__main__":
    sys.exit(sources.main("fragen", fragen, Path(__file__).resolve().parent.parent))
