"""Holds numbers that may not fall unseen against their list, numbers.txt beside this file.

    python3 -B checks/counts.py                    those that the files have
    python3 -B checks/counts.py FOLDER PART ..     those of a run: FOLDER has what these parts of ./test printed
    python3 -B checks/counts.py --renew            writes the list anew

Any difference is a fault, also a number that rose, so that the list is never behind; and so is a test that is ignored.
A new list takes its numbers from the files, and the rows of the comparison from what the last run of ./test left in
target/numbers; without that, they stay as they are in the list. The last line is as in sources.py.
"""

import re
import sys
from collections import Counter
from pathlib import Path

import gate
import replays
import sources

LIST, LEFT = "checks/numbers.txt", "target/numbers"
RENEW = "python3 -B checks/counts.py --renew"
OF_RUNS = "rows"

TEST = re.compile(r"#\[test\]")
IGNORED = re.compile(r"#\[\s*(?:cfg_attr\b[^\]]*\b)?ignore\b")
# Whose doc comments cargo runs, and the page that host/src/lib.rs takes for one; a block that names no other language.
DOCUMENTED = re.compile(r"(?:host|oracle/\w+)/src/(?!bin/).*\.rs|host/README\.md")
FENCES = {".rs": re.compile(r"^[ \t]*//[/!] ?```(.*)$", re.M), ".md": re.compile(r"^```(.*)$", re.M)}
EXAMPLE_WORDS = {"", "rust", "no_run", "should_panic", "compile_fail", "ignore"}

# A row of the comparison, and what cargo prints of each program with tests.
ROW = re.compile(r"^(mf_[a-z0-9_]+) .* \d+ +\d+$", re.M)
RESULT = re.compile(r"^test result: \w+\. (\d+) passed; (\d+) failed; (\d+) ignored; \d+ measured; (\d+) filtered out;")
TESTED = {"host": "host/", "findings": "oracle/"}


def examples(path, text):
    """The words at each example that cargo runs as a test."""
    words = [set(re.split(r"[ ,]+", opening.strip())) for opening in FENCES[path.suffix].findall(text)[::2]]
    return [it for it in words if it <= EXAMPLE_WORDS]


def of_files(root):
    """The numbers that the files have, by name, and the faults."""
    found, faults = Counter(exports=sources.exports(root)[0]), []
    for path in sources.tree(root):
        if path.match("crates/*/must-fail/*.edit"):
            found[f"must-fail {path.parts[1]}"] += 1
        is_code = path.parts[0] in ("host", "oracle", "crates") and path.suffix in (".rs", ".rt")
        is_documented = DOCUMENTED.fullmatch(path.as_posix())
        text = sources.read(root, path) if is_code or is_documented else ""
        if is_documented:
            found[f"examples {path}"] = len(examples(path, text))
            faults += [f"{path}: an example is ignored" for words in examples(path, text) if "ignore" in words]
        if is_code:
            code = sources.code_of(text)
            found[f"tests {path}"] = len(TEST.findall(code))
            ignored = [sources.line_of(code, it.start()) for it in IGNORED.finditer(code)]
            faults += [f"{path}:{line}: a test is ignored" for line in ignored]
    for program in replays.PROGRAMS:
        sizes = replays.sizes(root, program)
        found.update({f"replayed {program} {what}": number for what, number in sizes.items()})
        cases = sizes[replays.PROGRAMS[program][0]]
        if sources.read(root, f"crates/{program}/stdout") != replays.told(program, cases):
            faults.append(f"crates/{program}/stdout: does not say that all {cases} are equal")
    return +found, faults


def kind(name):
    return name.split()[0]


def listed(root):
    """The numbers of the list, by name, and the faults."""
    found, faults = {}, []
    for number, line in enumerate(sources.read(root, LIST).splitlines(), 1):
        entry = re.fullmatch(r"(\w[^#]*) ([1-9]\d*)", line)
        if entry and entry[1] not in found:
            found[entry[1]] = int(entry[2])
        elif not line.startswith("#"):
            faults.append(f"{LIST}:{number}: cannot be read, or stands there twice: {line}")
    if list(found) != sorted(found):
        faults.append(f"{LIST}: is not sorted")
    return found, faults


def differences(were, are):
    for name in sorted(were.keys() | are.keys()):
        was, now = were.get(name, 0), are.get(name, 0)
        if now < was:
            yield f"{name}: fell from {was} to {now}"
        elif now > was:
            yield f"{name}: rose from {was} to {now}, and the list is behind: {RENEW}"


def numbers(root):
    (were, wrong), (are, faults) = listed(root), of_files(root)
    were = {name: number for name, number in were.items() if kind(name) != OF_RUNS}
    return len(are), [*wrong, *faults, *differences(were, are)]


def rows(log):
    return Counter(f"rows {call}" for call in ROW.findall(log))


def of_cargo(log):
    """How many tests cargo ran, and the lines that say of some that they were not run."""
    results = [(result, line) for line in log.splitlines() if (result := RESULT.match(line))]
    ran = sum(int(result[1]) + int(result[2]) for result, _ in results)
    return ran, [line for result, line in results if int(result[3]) + int(result[4])]


def total(are, kinds, below=""):
    """How many there are of these kinds in all files below a folder."""
    return sum(number for name, number in are.items() if kind(name) in kinds and name.split()[-1].startswith(below))


def faults_of_part(part, log, were, are):
    """Where a run of the part tells another number than the files or the list."""
    if part == "ci":
        refused = sum(gate.ended(log))
        if refused != total(are, {"must-fail"}):
            yield f"ci: {refused} must-fail edits refused, and the files have {total(are, {'must-fail'})}"
    elif part in TESTED:
        ran, left_out = of_cargo(log)
        yield from (f"{part}: tests left out: {line}" for line in left_out)
        there = total(are, {"tests", "examples"}, TESTED[part])
        if ran != there:
            yield f"{part}: cargo ran {ran} tests, and the files have {there}"
    elif part == "comparison":
        yield from differences({name: it for name, it in were.items() if kind(name) == OF_RUNS}, rows(log))
    else:
        yield f"{part}: no part with numbers"


def runs(root, folder, parts):
    were, are, faults = listed(root)[0], of_files(root)[0], []
    for part in parts:
        faults += faults_of_part(part, sources.read(root, Path(folder, part)), were, are)
    return len(parts), faults


def renewed(root):
    """The new list, what changes by it, and the faults that no list mends."""
    were, _ = listed(root) if Path(root, LIST).exists() else ({}, [])
    are, faults = of_files(root)
    left = Path(root, LEFT, "comparison")
    of_runs = {name: number for name, number in were.items() if kind(name) == OF_RUNS}
    are.update(rows(sources.read(root, left)) if left.exists() else of_runs)
    lines = [f"# {RENEW} writes this list.", *(f"{name} {are[name]}" for name in sorted(are))]
    return "\n".join(lines) + "\n", list(differences(were, are)), faults


def renew(root):
    text, changes, faults = renewed(root)
    Path(root, LIST).write_text(text, encoding="utf-8")
    for told in [*(change.partition(", and ")[0] for change in changes), *faults]:
        print(told)
    return 1 if faults else 0


def main(arguments, root):
    if arguments == ["--renew"]:
        return renew(root)
    if arguments:
        folder, *parts = arguments
        return sources.main("runs", lambda _: runs(root, Path(folder).absolute(), parts), root)
    return sources.main("numbers", numbers, root)


if __name__ == "__main__":
    sys.exit(main(sys.argv[1:], Path(__file__).resolve().parent.parent))
