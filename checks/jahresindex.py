"""Counts the Werktage before each 1 January on Python's calendar, and holds the year index's two copies against it.

    python3 -B checks/jahresindex.py            the check; its last line is as in sources.py
    python3 -B checks/jahresindex.py rt         the entries as they stand in the code
    python3 -B checks/jahresindex.py antt       the entries as they stand in the proofs

Nothing here is of the proofs: days are counted one by one, and Easter is dated by Gauss's rule, not by the algorithm
of the definitions.
"""

import datetime
import re
import sys
from functools import cache
from itertools import accumulate
from pathlib import Path

import sources

CODE, PROOFS = "crates/jahresindex/src/tabelle.rt", "crates/jahresindex/specs/Entries.antt"
FIRST_YEAR, LAST_YEAR = 1996, 2899
FIXED = "1.1. 6.1. 8.3. 1.5. 15.8. 20.9. 3.10. 31.10. 1.11. 24.12. 25.12. 26.12. 31.12."
OFFSETS = -2, 1, 39, 49, 50, 60
WIDTH = 118


def easter(x):
    """Gauss's rule in Lichtenberg's form and letters: a day of March, with 32 for 1 April."""
    k, a = x // 100, x % 19
    m, s = 15 + (3 * k + 3) // 4 - (8 * k + 13) // 25, 2 - (3 * k + 3) // 4
    d = (19 * a + m) % 30
    r = (d + a // 11) // 29
    og, sz = 21 + d - r, 7 - (x + x // 4 + s) % 7
    return datetime.date(x, 3, 1) + datetime.timedelta(og + 7 - (og - sz) % 7 - 1)


def holidays(year):
    fixed = [entry.split(".")[:2] for entry in FIXED.split()]
    found = {datetime.date(year, int(month), int(day)) for day, month in fixed}
    november = [datetime.date(year, 11, day) for day in range(16, 23)]
    found.update(date for date in november if date.weekday() == 2)
    return found | {easter(year) + datetime.timedelta(offset) for offset in OFFSETS}


def werktage(year):
    closed = holidays(year)
    days = [datetime.date(year, 1, 1) + datetime.timedelta(day) for day in range(366)]
    return sum(day.year == year and day.weekday() < 5 and day not in closed for day in days)


@cache
def entries():
    """For each year from 1996 to 2900 the Werktage before its 1 January."""
    return list(accumulate((werktage(year) for year in range(FIRST_YEAR, LAST_YEAR + 1)), initial=0))


def written(root, path):
    """The numbers of the one table in a file."""
    table = re.search(r"= *\[\n(.*?)\n\];|entries =\n(.*?) ∷ \[\]", sources.read(root, path), re.S)
    return [int(number) for number in re.findall(r"\d+", table[1] or table[2])] if table else []


def jahresindex(root):
    faults, right = [], entries()
    for path in CODE, PROOFS:
        there = written(root, path)
        if len(there) != len(right):
            faults.append(f"{path}: {len(there)} entries and not {len(right)}")
        for year, (entry, count) in enumerate(zip(there, right), FIRST_YEAR):
            if entry != count:
                faults.append(f"{path}: {entry} Werktage before 1 January {year}, which has {count}")
    return 2 * len(right), faults


def printed(form):
    if form == "rt":
        return "".join(f"    {entry},\n" for entry in entries())
    lines, line = [], "   "
    for entry in entries():
        if len(line) + len(f" {entry} ∷") > WIDTH:
            lines, line = lines + [line], "   "
        line += f" {entry} ∷"
    return "\n".join(lines + [line + " []"]) + "\n"


if __name__ == "__main__":
    if sys.argv[1:] in (["rt"], ["antt"]):
        print(printed(sys.argv[1]), end="")
    elif sys.argv[1:]:
        sys.exit("checks: jahresindex: nothing, rt or antt")
    else:
        sys.exit(sources.main("jahresindex", jahresindex, Path(__file__).resolve().parent.parent))
