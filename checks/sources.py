"""Checks of the sources, without a prover.

    python3 -B checks/sources.py CHECK

Prints every fault with its place. The last line is 'checks: CHECK: N looked at, M faults'; ends with 0
only if nothing is wrong and something was looked at.
"""

import os
import re
import sys
from pathlib import Path

LONGEST_LINE = 120
# The exports for C, and the library whose calls they are.
EXPORTING_CRATE, CALLED_CRATE = "mako_fristen_c", "mako_fristen"
# Where the calls are declared for Rust and for C, and C's names of the numbers.
HOST, HEADER = "host/src/ffi.rs", "host/include/mako_fristen.h"
C_TYPES = {"u8": "uint8_t", "u16": "uint16_t", "u32": "uint32_t", "i64": "int64_t"}
NOT_OURS = re.compile(r"\.git|target|host/target|oracle/target|crates/[^/]+/out")


def tree(root, below=""):
    """Every file, as its path from the root. What cannot be read is no reason to go on."""

    def stop(error):
        raise error

    for folder, folders, files in os.walk(Path(root, below), onerror=stop):
        here = Path(folder).relative_to(root)
        folders[:] = sorted(name for name in folders if not NOT_OURS.fullmatch((here / name).as_posix()))
        for name in sorted(files) + [name for name in folders if Path(folder, name).is_symlink()]:
            yield here / name


def read(root, path):
    return Path(root, path).read_text(encoding="utf-8")


def line_of(text, at):
    return text.count("\n", 0, at) + 1


# Files of a crate that crates.txt lists.

FOLDERS = {".rt": ("src",), ".antt": ("specs", "proofs")}


def files(root):
    listed = set(re.findall(r"^[ \t]*(\w+)[^#:\n]*:", read(root, "crates.txt"), re.M))
    there = {entry.name for entry in Path(root, "crates").iterdir() if entry.is_dir()}
    looked = len(there)
    faults = [f"crates/{name}: a folder that crates.txt does not list" for name in sorted(there - listed)]
    faults += [f"crates.txt: {name} has no folder in crates" for name in sorted(listed - there)]
    for path in tree(root):
        if Path(root, path).is_symlink() and path.parts[0] == "crates":
            faults.append(f"{path}: a link, which the checks do not follow")
        if path.suffix in FOLDERS:
            looked += 1
            if len(path.parts) < 3 or path.parts[0] != "crates" or path.parts[1] not in listed:
                faults.append(f"{path}: in no crate that crates.txt lists")
            elif len(path.parts) < 4 or path.parts[2] not in FOLDERS[path.suffix]:
                faults.append(f"{path}: not below {' or '.join(FOLDERS[path.suffix])} of its crate")
    return looked, faults


# Exported calls.

SKIPPED = re.compile(
    r"""(?P<comment>//[^\n]*|/\*.*?\*/) | b?"(?:\\.|[^"\\])*" | b?'(?:\\.|[^'\\\n])'""", re.S | re.X
)
MARK = re.compile(r"\bno_mangle\b|\bexport_name\b|\bextern\b")
EXPORT = re.compile(r'#\[unsafe\(no_mangle\)\]\s*(?:#\[[^\]]*\]\s*)*pub\s+extern\s*"C"\s*fn\s+(\w+)\s*\(')
CALL = re.compile(r"\bpub\s+fn\s+(mf_\w+)\s*\(")
# A clause's word and its name, which one that is alone need not have.
CLAUSE = re.compile(r"\b((?:ensures|requires|ghost)\b\*?)\s*(\w*)\s*$")
EQUATION = re.compile(r"\(result((?:, \w+\.new)+)\) ≡ ([^≡]+)")
GHOST_USE = re.compile(r"\bghost\s+use\s+([\w.]+)\.(?:\{([^}]*)\}|([^\s;{]+))\s*;")
CLOSING = {"(": ")", "{": "}"}


def code_of(text):
    """The text without its comments, every other character at its place."""

    def blank(match):
        return re.sub(r"[^\n]", " ", match.group()) if match.group("comment") else match.group()

    return SKIPPED.sub(blank, text)


def group(code, at):
    """The end of the group that begins with the bracket at this place."""
    opening, depth = code[at], 0
    for place in range(at, len(code)):
        depth += (code[place] == opening) - (code[place] == CLOSING[opening])
        if depth == 0:
            return place + 1
    return len(code)


def contract(code, at):
    """Of the function whose parameters end here: the clauses, as word, name and text; the body; the word after it."""
    clauses = []
    while (brace := code.find("{", at)) >= 0:
        clause, end = CLAUSE.search(code[at:brace]), group(code, brace)
        inside = spaced(code[brace + 1 : end - 1])
        if not clause:
            return clauses, inside, code[end:].split(None, 1)[:1]
        clauses.append((*clause.groups(), inside))
        at = end
    return clauses, None, []


def spaced(code):
    """The code in one line, wrapped or not."""
    return re.sub(r",? \)", ")", re.sub(r"\( ", "(", " ".join(code.split())))


def faults_of_export(parameters, clauses, after):
    words = [word for word, *_ in clauses]
    if {"requires", "requires*", "ghost"} & set(words):
        yield "asks something of its caller"
    if after and re.match(r"(?:ensures|requires|ghost)\b|\{", after[0]):
        yield "has a contract that cannot be read"
    if words.count("ensures") + words.count("ensures*") != 1:
        yield f"has {words.count('ensures') + words.count('ensures*')} ensures and not one"
        return
    promise = next((text for word, _, text in clauses if word == "ensures"), "")
    equation = EQUATION.fullmatch(promise)
    if not equation:
        yield "promises no equation (result, .. .new) ≡ .."
        return
    left, right = equation.groups()
    if set(re.findall(r"(\w+)\.new", left)) != set(re.findall(r"(\w+)\s*:\s*&\s*mut\b", parameters)):
        yield "promises nothing of a slice that it may write"
    if re.search(r"\bresult\b|\.(?:new|exit)\b", right):
        yield "has on the right what it promises on the left"
    if not re.fullmatch(r"[\w.() ]+", right):
        yield "promises more or less than an equation"


def imported(code):
    """What the contracts of a file import, each name with its path."""
    found = set()
    for path, several, one in GHOST_USE.findall(code):
        found |= {f"{path}.{spaced(name)}" for name in (several or one).split(",") if name.strip()}
    return found


def library_calls(root):
    """The calls of the library, by name: parameters, clauses, imports; of two of one name none can be told."""
    found = {}
    for path in tree(root, f"crates/{CALLED_CRATE}/src"):
        if path.suffix != ".rt":
            continue
        code = code_of(read(root, path))
        for call in CALL.finditer(code):
            end = group(code, call.end() - 1)
            told = spaced(code[call.end() - 1 : end]), contract(code, end)[0], imported(code)
            found[call[1]] = None if call[1] in found else told
    return found


def faults_of_call(name, parameters, clauses, body, imports, call):
    """Where an export is not the library's call of the same name, handed on."""
    if not call:
        yield f"is not one call of {CALLED_CRATE}"
        return
    if parameters != call[0]:
        yield f"has other parameters than in {CALLED_CRATE}"
    if clauses != call[1]:
        yield f"has other clauses than in {CALLED_CRATE}"
    for other in sorted(imports - call[2]):
        yield f"has clauses with {other}, which those in {CALLED_CRATE} do not import"
    arguments = ", ".join(re.findall(r"(\w+) ?:(?!:)", parameters))
    if body != f"{CALLED_CRATE}::{name}({arguments})":
        yield f"does not hand its parameters to {CALLED_CRATE}::{name} alone"


def call_table(root):
    """The calls of the first table of docs/host-calls.md."""
    rows, calls = read(root, "docs/host-calls.md").splitlines(), []
    first = next((at for at, row in enumerate(rows) if row.startswith("|")), len(rows))
    for row in rows[first:]:
        if not row.startswith("|"):
            break
        calls += re.findall(r"`(mf_\w+)`", row.split("|")[1])
    return calls


def host_calls(root):
    """The calls that host/src/ffi.rs declares, each with its parameters as C has them."""
    code = code_of(read(root, HOST))
    block = re.search(r"^calls!\s*\{", code, re.M)
    rows = code[block.end() : group(code, block.end() - 1)] if block else ""
    return [(name, in_c(name, parameters)) for name, parameters in re.findall(r"\b(mf_\w+)\s*\(([^)]*)\)", rows)]


def in_c(call, parameters):
    """The parameters of a row, &reason: u8 for a slice that is read and *counts: u32 for one that is written."""
    found = []
    for mark, name, number in re.findall(r"([&*]?)(\w+)\s*:\s*(\w+)", parameters):
        kind = C_TYPES.get(number, number)
        if mark:
            found += [("const " if mark == "&" else "") + f"{kind} *{name}", f"size_t {name}_len"]
        else:
            found.append(f"{kind} {name}")
    answer = "answers" if call == "mf_questions" else "answer"
    return [*found, f"uint8_t *{answer}", f"size_t {answer}_len"]


def header_calls(root):
    """The calls that the header declares, each with its parameters."""
    calls = re.findall(r"\b(\w+)\s+(mf_\w+)\s*\(([^)]*)\)\s*;", code_of(read(root, HEADER)))
    return [
        (name, [spaced(it) for it in parameters.split(",")] if kind == "uint8_t" else [kind])
        for kind, name, parameters in calls
    ]


def faults_of_header(header, host):
    """Where the header declares a call otherwise than the host, or in another order."""
    for name, parameters in header:
        if name in dict(host) and parameters != dict(host)[name]:
            yield f"{HEADER}: {name} is declared otherwise than in {HOST}"
    if [name for name, _ in header if name in dict(host)] != [name for name, _ in host if name in dict(header)]:
        yield f"{HEADER}: has another order than {HOST}"


def exports(root):
    found, faults, calls = [], [], library_calls(root)
    for path in tree(root, "crates"):
        if path.suffix != ".rt":
            continue
        code = code_of(read(root, path))
        marks = {match.start() for match in MARK.finditer(code)}
        for export in EXPORT.finditer(code):
            marks -= set(range(export.start(), export.end()))
            name, place = export[1], f"{path}:{line_of(code, export.start(1))}"
            found.append(name)
            if path.parts[1] != EXPORTING_CRATE:
                faults.append(f"{place}: {name} is exported outside of {EXPORTING_CRATE}")
            end = group(code, export.end() - 1)
            parameters = spaced(code[export.end() - 1 : end])
            clauses, body, after = contract(code, end)
            for fault in [
                *faults_of_export(parameters, clauses, after),
                *faults_of_call(name, parameters, clauses, body, imported(code), calls.get(name)),
            ]:
                faults.append(f"{place}: {name} {fault}")
        for mark in sorted(marks):
            place = f"{path}:{line_of(code, mark)}"
            faults.append(f'{place}: no export of the form #[unsafe(no_mangle)] pub extern "C" fn')
    host, header = host_calls(root), header_calls(root)
    faults += faults_of_header(header, host)
    for what, there in [
        (f"crates/{CALLED_CRATE}", list(calls)),
        ("docs/host-calls.md", call_table(root)),
        (HOST, [name for name, _ in host]),
        (HEADER, [name for name, _ in header]),
    ]:
        for call in sorted(set(found) ^ set(there)):
            faults.append(f"{what}: {call} is not both there and exported")
        if len(there) != len(set(there)) or not there:
            faults.append(f"{what}: has {len(there)} calls with {len(set(there))} names")
    if len(found) != len(set(found)):
        faults.append(f"crates: {len(found)} exports with {len(set(found))} names")
    return len(found), faults


# Doc comments of public functions.

PUBLIC = re.compile(r'^[ \t]*pub\b(?:\s*\([^)]*\))?(?:\s+(?:ghost|const|unsafe|extern\s*"C"))*\s+fn\s+(\w+)', re.M)


def docs(root):
    looked, faults = 0, []
    for path in tree(root, "crates"):
        if path.suffix != ".rt":
            continue
        text = read(root, path)
        lines = text.split("\n")
        for function in PUBLIC.finditer(code_of(text)):
            looked += 1
            line = line_of(text, function.start(1))
            above = line_of(text, function.start()) - 2
            while above >= 0 and re.fullmatch(r"\s*#\[.*\]\s*", lines[above]):
                above -= 1
            if above < 0 or not re.match(r"\s*///\s*\S", lines[above]):
                faults.append(f"{path}:{line}: {function[1]} has no doc comment")
    return looked, faults


# Names of definitions.

DEFINITION = re.compile(r"^(?:[a-z]+ +)*pub +(?:(record|data|ruleset|mod|use) +)?([^\s:({]+)", re.M)


def names(root):
    looked, faults, places = 0, [], {}
    for path in tree(root, "crates"):
        if path.suffix != ".antt" or path.parts[2] != "specs":
            continue
        text = read(root, path)
        for definition in DEFINITION.finditer(text):
            kind, name = definition.groups()
            if kind in ("mod", "use"):
                continue
            looked += 1
            place = f"{path}:{line_of(text, definition.start())}"
            if name in places:
                faults.append(f"{place}: {name} is also defined in {places[name]}")
            places.setdefault(name, place)
    return looked, faults


# Edits that the prover must refuse.


def edits(root):
    looked, faults = 0, []
    for path in tree(root, "crates"):
        if path.suffix != ".edit":
            continue
        looked += 1
        rows = enumerate(read(root, path).split("\n"), 1)
        changed = [(line, row.removeprefix("file: ").strip()) for line, row in rows if row.startswith("file: ")]
        if len(path.parts) != 4 or path.parts[2] != "must-fail":
            faults.append(f"{path}: not right in must-fail of its crate")
        if not changed:
            faults.append(f"{path}: names no file")
        for line, row in enumerate(read(root, path).split("\n"), 1):
            if re.match(r"(?:old|new):.*\b(?:ensures|requires|ghost)\b", row):
                faults.append(f"{path}:{line}: changes a promise, and only an edit of code shows what that refuses")
        for line, file in changed:
            if not file.startswith("src/") or os.path.normpath(file) != file:
                faults.append(f"{path}:{line}: changes {file}, and only an edit of src/ shows what a contract refuses")
    return looked, faults


# The length of lines.

TEXTS = {".rt", ".antt", ".rs", ".c", ".h", ".edit", ".md", ".toml", ".py", ".sh"}
# A row of a table, in Markdown or in the Markdown of a Rust comment, cannot be broken.
TABLE_ROW = {".md": re.compile(r"\s*\|"), ".rs": re.compile(r"\s*//[/!] \|")}
FENCE = re.compile(r" {0,3}(```|~~~)")


def is_text(root, path):
    if path.parts[0] == "crates" and len(path.parts) > 2 and path.parts[2] in ("stdin", "stdout", "data"):
        return False
    if path.suffix:
        return path.suffix in TEXTS
    with open(Path(root, path), "rb") as file:
        return file.read(2) == b"#!"


def lines(root):
    looked, faults = 0, []
    for path in tree(root):
        if Path(root, path).is_symlink() or not is_text(root, path):
            continue
        table_row, fence = TABLE_ROW.get(path.suffix), None
        for number, line in enumerate(read(root, path).split("\n"), 1):
            looked += 1
            mark = FENCE.match(line) if path.suffix == ".md" else None
            if mark and fence in (None, mark[1]):
                fence = None if fence else mark[1]
            if len(line) > LONGEST_LINE and not fence and not (table_row and table_row.match(line)):
                faults.append(f"{path}:{number}: {len(line)} characters, over {LONGEST_LINE}")
        if fence:
            faults.append(f"{path}: a block of code that does not end")
    return looked, faults


CHECKS = {"files": files, "exports": exports, "docs": docs, "names": names, "edits": edits, "lines": lines}


def run(check, root):
    """The number of things looked at and the faults, of which at least one if there is nothing to look at."""
    try:
        looked, faults = check(root)
    except (OSError, UnicodeDecodeError) as error:
        return 0, [str(error)]
    return looked, faults if looked else faults + ["there is nothing to look at"]


def main(name, check, root):
    looked, faults = run(check, root)
    print(*faults, sep="\n", end="\n" if faults else "")
    print(f"checks: {name}: {looked} looked at, {len(faults)} faults")
    return 1 if faults else 0


if __name__ == "__main__":
    if len(sys.argv) != 2 or sys.argv[1] not in CHECKS:
        sys.exit(f"checks: one of {', '.join(CHECKS)}")
    sys.exit(main(sys.argv[1], CHECKS[sys.argv[1]], Path(__file__).resolve().parent.parent))
