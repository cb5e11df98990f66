"""Runs each replay program on its stored input, and on inputs in which one stored answer is wrong.

    python3 -B checks/replays.py

A program must name the one case that is wrong, and count all others as equal. It needs crates/NAME/out/NAME, which
`rt ci` leaves there and `rt run <stdin` in crates/NAME builds. The last line is as in sources.py.
"""

import re
import subprocess
import sys
from pathlib import Path

import sources

# Longer than any run takes.
SECONDS = 20
LINE = re.compile(rb"[0-9a-f]{128} ([0-9a-f]{64})\n")


def word(data, at):
    return int.from_bytes(data[at : at + 4], "little")


def answer(data, at):
    """Of the case at a place: the places of its parts, of which the last ends where the next case begins."""
    line = LINE.match(data, at)
    return {"answer": range(*line.span(1)), "end": range(line.end(1), line.end())} if line else {}


def file(data, at):
    number = at + 8 + word(data, at)
    answers = range(number + 1, number + 1 + word(data, at + 4))
    return {"number": range(number, number + 1), "answers": answers}


def portfolio(data, at):
    first, second, third, lent = (word(data, at + 4 * place) for place in range(4))
    number = at + 16 + 4 * (first + second)
    counts = range(number + 1, number + 1 + 4 * third)
    return {"number": range(number, number + 1), "counts": counts, "answer": range(counts.stop, counts.stop + lent)}


# Of each program: what it calls its cases, what reads one, and the parts in which one may be wrong.
PROGRAMS = {
    "vektoren": ("answers", answer, ["answer"]),
    "vektoren_fragen": ("files", file, ["number", "answers"]),
    "vektoren_portfolio": ("portfolios", portfolio, ["number", "counts", "answer"]),
}
# Of a program whose cases have any number of answers: the part that has them, and the bytes of one.
SEVERAL = {"vektoren_fragen": ("answers", 32), "vektoren_portfolio": ("counts", 4)}


def stored(root, name):
    """The stored input of a program and its cases."""
    path = f"crates/{name}/stdin"
    data, at, cases = Path(root, path).read_bytes(), 0, []
    while at < len(data):
        cases.append(PROGRAMS[name][1](data, at))
        end = list(cases[-1].values())[-1].stop if cases[-1] else len(data) + 1
        if end > len(data):
            raise OSError(f"{path}: case {len(cases)} cannot be read")
        at = end
    return data, cases


def sizes(root, name):
    """How many cases a program has, and how many answers in them."""
    cases = stored(root, name)[1]
    found = {PROGRAMS[name][0]: len(cases)}
    if name in SEVERAL:
        part, size = SEVERAL[name]
        found[part] = sum(len(case[part]) // size for case in cases)
    return found


def told(name, cases, wrong=None):
    """What a program prints, of which at most one case is wrong."""
    first = "" if wrong is None else f"{wrong}\n"
    return f"{first}{cases} {PROGRAMS[name][0]}, {cases - (wrong is not None)} equal\n"


def wrong_digit(digit, bit):
    return b"%x" % (int(digit, 16) ^ bit)


def wrong_byte(byte, bit):
    return bytes([byte[0] ^ bit])


def wrong(name, data, cases):
    """Inputs with one wrong case: its number, what is wrong there, and the input."""
    for part in PROGRAMS[name][2]:
        having = [number for number, case in enumerate(cases, 1) if len(case[part])]
        if not having:
            raise OSError(f"crates/{name}/stdin: no case has {part}")
        for number in dict.fromkeys([having[0], having[len(having) // 2], having[-1]]):
            places = cases[number - 1][part]
            change, highest = (wrong_digit, 8) if name == "vektoren" else (wrong_byte, 128)
            for at, bit in (places[0], 1), (places[-1], highest):
                changed = data[:at] + change(data[at : at + 1], bit) + data[at + 1 :]
                yield number, f"{part}, byte {at - places[0] + 1} of {len(places)}", changed


def printed(program, given):
    """What the program prints; None if it does not end, or not well."""
    try:
        ran = subprocess.run([program], input=given, stdout=subprocess.PIPE, timeout=SECONDS, check=False)
    except subprocess.TimeoutExpired:
        return None
    return ran.stdout if ran.returncode == 0 else None


def replays_of(root, name):
    """Each run of a program: what it is, and whether the program printed what it must."""
    data, cases = stored(root, name)
    program = Path(root, f"crates/{name}/out/{name}")
    yield "as it is stored", printed(program, data) == told(name, len(cases)).encode()
    for number, what, given in wrong(name, data, cases):
        yield f"case {number} wrong ({what})", printed(program, given) == told(name, len(cases), number).encode()


def replays(root):
    looked, faults = 0, []
    for name in PROGRAMS:
        for what, right in replays_of(root, name):
            looked += 1
            if not right:
                faults.append(f"crates/{name}/out/{name}: {what}: prints otherwise, or does not end")
                # The next run may not end either.
                break
    return looked, faults


if __name__ == "__main__":
    sys.exit(sources.main("replays", replays, Path(__file__).resolve().parent.parent))
