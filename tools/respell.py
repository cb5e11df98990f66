#!/usr/bin/env python3
"""Brings the repository's own definitions and lemmas to the spelling of today's Rattle.

usage: python3 tools/respell.py [--report]     at the top of the repository, once, right after the kit's port.py

A definition or a lemma is in snake case, a definition that gives a type in upper camel case. Respelled is what
specs/*.antt and proofs/*.antt declare, and the helpers that a function's proof file declares; the names that Rattle
makes, the functions of src/, strings and outputs keep their spelling. Where the names are cited they follow: in .antt
files, and, for the names that had a hump, in .rt files, must-fail edits, checks and documents. With --report nothing is
written, and the names that fall together are printed.
"""

import collections
import glob
import re
import sys

WORD = re.compile(r"[^\s(){}\[\],;.:\"`|/⌜⌝]+")
SIGNATURE = re.compile(r"^\s*(?:(?:pub|abbrev|unfoldable) )*([^\s(){}:=,.]+) :( |$)")
RECORD = re.compile(r"^\s*(?:pub )?(record|data|ruleset) ([^\s(){}:=,.]+)")
HUMP = re.compile(r"(?<=[a-z0-9])(?=[A-Z])")
# 'A lemma that would have its function's name gets `_lem`.'
LEMMA = "_lem"
# A name that would otherwise fall together with another type.
OWN = {"properClock": "ProperClockReading"}
# A definition that gives a type, where another crate's lemma has the same name: (name, new name, crates).
THERE = ("begins", "Begins", ("vorlauf", "spannen"))


def snake(name):
    return HUMP.sub("_", name).replace("-", "_").lower()


def camel(name):
    return "".join(w[:1].upper() + w[1:] for w in HUMP.sub("_", name).replace("-", "_").split("_"))


def indent(line):
    return len(line) - len(line.lstrip())


def signature(lines, i):
    """The text of the signature that begins in line i: it goes on while lines are indented deeper."""
    text = lines[i].split(" :", 1)[1]
    for l in lines[i + 1 :]:
        if not l.strip() or indent(l) <= indent(lines[i]):
            break
        text += " " + l.strip()
    return text


def declared():
    """name -> the set of (file, kind); the kinds are type, value, field and goal."""
    out = collections.defaultdict(set)
    folders = ("specs", "proofs")
    files = [f for folder in folders for f in glob.glob(f"crates/*/{folder}/**/*.antt", recursive=True)]
    for f in sorted(files):
        with open(f, encoding="utf-8") as it:
            lines = it.read().split("\n")
        record = None
        for i, l in enumerate(lines):
            if l.strip() and record is not None and indent(l) <= record:
                record = None
            if l.lstrip().startswith(("--", "use ", "mod ", "pub mod ", "unfolding")):
                continue
            m = RECORD.match(l)
            if m:
                out[m.group(2)].add((f, "value" if m.group(1) == "ruleset" else "type"))
                record = indent(l) if m.group(1) == "record" else record
                continue
            m = SIGNATURE.match(l)
            if not m:
                continue
            text = signature(lines, i)
            if re.search(r"\b(tie|goal|given)\.\w", text) or "statement M" in text:
                kind = "goal"
            elif re.search(r"(^|→ ?|\s)Type \d+\s*$", text):
                kind = "type"
            else:
                kind = "field" if record is not None else "value"
            out[m.group(1)].add((f, kind))
    return out


def renamed(where):
    """old name -> new name."""
    out = {}
    for name, places in where.items():
        kinds = {k for _, k in places} - {"goal"}
        if not kinds:
            continue
        if name in OWN:
            out[name] = OWN[name]
        elif kinds == {"type"}:
            out[name] = camel(name) if re.search(r"[A-Za-z]{2}", name) else name
        elif HUMP.search(name) or re.search(r"\w-\w", name):
            out[name] = snake(name)
    taken = collections.defaultdict(set)
    for name, new in out.items():
        taken[new].add(name)
    for name in where:
        taken[name].add(name)
    for name, new in out.items():
        if "-" in name and len(taken[new]) > 1 and any("-" not in other for other in taken[new]):
            out[name] = new + LEMMA
    return {a: b for a, b in out.items() if a != b}


def respell(text, names, fields, antt):
    def word(m):
        w = m.group(0)
        if w not in names or ("-" in w and not antt):
            return w
        before = text[max(0, m.start() - 120) : m.start()]
        if before.endswith(".") and re.search(r"[\w'₀-₉)]\.$", before) and "-" in w and w not in fields:
            if not re.search(r"Rattle\.\w+\.(specs|proofs)\.[\w.]*$", before):
                return w
        return names[w]

    return WORD.sub(word, text)


def main():
    where = declared()
    names = renamed(where)
    fields = {n for n, places in where.items() if any(k == "field" for _, k in places)}
    goals = collections.defaultdict(set)
    for n, places in where.items():
        for f, k in places:
            if k == "goal":
                goals[f].add(n)
    if "--report" in sys.argv[1:]:
        by = collections.defaultdict(set)
        for a in set(names) | set(where):
            by[names.get(a, a)].add(a)
        for b, a in sorted(by.items()):
            if len(a) > 1:
                print("together:", b, *sorted(a))
        print(len(names), "names")
        return
    patterns = (
        "crates/*/specs/**/*.antt",
        "crates/*/proofs/**/*.antt",
        "crates/*/src/**/*.rt",
        "crates/*/must-fail/*.edit",
        "checks/*.py",
        "*.md",
        "docs/*.md",
        "host/**/*.md",
        "oracle/*.md",
    )
    for f in sorted({f for p in patterns for f in glob.glob(p, recursive=True) if "/target/" not in f}):
        with open(f, encoding="utf-8") as it:
            old = it.read()
        mine = {a: b for a, b in names.items() if a not in goals[f]}
        new = respell(old, mine, fields, f.endswith(".antt"))
        if f.startswith(tuple(f"crates/{c}/" for c in THERE[2])) and f.endswith(".antt"):
            lines = new.split("\n")
            for i, l in enumerate(lines):
                if l.startswith("--   " + THERE[0]) or not l.lstrip().startswith("--"):
                    lines[i] = re.sub(rf"\b{THERE[0]}\b", THERE[1], l)
            new = "\n".join(lines)
        if new != old:
            with open(f, "w", encoding="utf-8") as it:
                it.write(new)
    print(f"respell: {len(names)} names")


if __name__ == "__main__":
    main()
