"""Reads what `rt ci` printed: it has to end with every must-fail edit refused, and each for its contract.

    python3 -B checks/gate.py LOG

Names every edit that shows nothing (bad, or not tried) or little (refused only by a limit of the prover, or only
because a proof file names what the edit took away): `rt ci` itself ends well on most of these. An edit whose first
error stands in a proof file is named too, without a fault: there it may be the proof alone that no longer fits. The
last line is as in sources.py.
"""

import re
import sys

import sources

EDIT = re.compile(r"rt: must-fail (\S+/\S+): (.*)")
REFUSED = re.compile(r"refused, as it must be(?:$|: | \((.*))")
# An edit whose name cannot be read, which has no line of the form above.
MISPLACED = re.compile(r"rt: (\S+): (BAD EDIT: .*)")
LONGEST = 200


def outcomes(log):
    """Of each edit in the log: its name, whether it is refused, and what is to be said against it, if anything."""
    for line in log.splitlines():
        if edit := EDIT.fullmatch(line):
            refused = REFUSED.match(edit[2])
            yield edit[1], bool(refused), (refused[1] and f"refused, but {refused[1]}" if refused else edit[2])
        elif misplaced := MISPLACED.fullmatch(line):
            yield misplaced[1], False, misplaced[2]


def ended(log):
    """How many edits are refused by each line of the log in which `rt ci` says that all is well."""
    lines = re.findall(r"^rt: ok\b.*", log, re.M)
    return [int(number[1]) if (number := re.search(r"; must-fail edits: (\d+) refused\b", it)) else 0 for it in lines]


def gate(log):
    found = list(outcomes(log))
    faults = [f"{edit}: {said[:LONGEST]}" for edit, _, said in found if said]
    numbers, refused = ended(log), sum(is_refused for _, is_refused, _ in found)
    if len(numbers) != 1:
        faults.append(f"{len(numbers)} lines that begin with 'rt: ok'")
    elif numbers != [refused]:
        faults.append(f"{numbers[0]} edits refused, and {refused} named")
    return len(found), faults


def in_proofs(log):
    """The edits whose first error stands in a proof file."""
    return re.findall(r"^rt: must-fail (\S+/\S+): refused, as it must be: (\./proofs/\S+)", log, re.M)


def main(log):
    for edit, place in in_proofs(sources.read(log, "")):
        print(f"{edit}: refused first in {place}")
    return sources.main("gate", lambda path: gate(sources.read(path, "")), log)


if __name__ == "__main__":
    if len(sys.argv) != 2:
        sys.exit("checks: gate: the file with what rt ci printed")
    sys.exit(main(sys.argv[1]))
