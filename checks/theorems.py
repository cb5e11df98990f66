"""The theorems: that each stands where it is named, and that none has become weaker unseen.

    python3 -B checks/theorems.py             holds the repository against checks/theorems.txt
    python3 -B checks/theorems.py --renew     writes that list anew, for a change that is meant

A theorem function is public, has no parameters and an empty body: what it promises is a theorem. The list has each
clause of these functions, of the host calls, and of every function that README.md or docs/MAP.md name in the form
`crate::function` or `crate::function.clause`; and each definition that these clauses come to. A definition has a
checksum of its text and of where the names in it come from, a function of where those in its clauses do. A clause that
is gone or says something else is a fault, as is another checksum, a name in those pages that no function has, a theorem
function that docs/MAP.md does not name, and one that `faelle` does not call: then it could be deleted alone. What
could hide a change from the list is refused in files of specs/. The last line is as in sources.py.
"""

import hashlib
import re
import sys
from pathlib import Path

import sources

LIST, MAP, PAGES = "checks/theorems.txt", "docs/MAP.md", ("README.md", "docs/MAP.md")
CASES = "faelle"
HEAD = """# The clauses of the theorem functions, of the host calls and of the functions that README.md and docs/MAP.md
# name; then the definitions that they come to, each with a checksum of its text.
# `python3 -B checks/theorems.py --renew` writes this list.
"""

# Functions and their clauses.

FUNCTION = re.compile(r'\b(pub\s+)?(?:const\s+)?(?:extern\s*"[^"]*"\s*)?fn\s+(\w+)\s*(?=[<(])')
MODULE = re.compile(r"\bmod\s+(\w+)\s*([;{])")
IMPL = re.compile(r"\bimpl\b(?:\s*<[^{]*?>)?\s+(?:[\w:<>', ]+\s+for\s+)?(\w+)[^{};]*\{")
TEXT = re.compile(r'b?"(?:\\.|[^"\\])*"', re.S)
CALLED = re.compile(r"\b((?:\w+::)*\w+)(?:::<\w+>)?\(")
CITED = re.compile(r"`([a-z_]+(?:::\w+)+)(?:\.(\w+))?`")
IMPORT = re.compile(r"\buse\s+([\w.+]+)\.(?:\{([^}]*)\}|([^\s;{]+))")


class Function:
    """A function by its name, with its clauses, and where the names in them come from."""

    def __init__(self, name, place, is_theorem, types, clauses, body, imports):
        self.name, self.place, self.is_theorem, self.types = name, place, is_theorem, types
        self.clauses, self.body, self.imports = clauses, body, imports

    def words(self):
        return sorted({word for _, _, text in self.clauses for word in words_of(text, self.imports)})

    def kind(self):
        kind = "theorem" if self.is_theorem else "function"
        return f"{kind}{self.types} {checksum(origins(self.words(), self.imports))}"


def blocks(code, pattern):
    """The parts of the code in the braces with which each match of the pattern ends: start, end, name."""
    found = [(it.end() - 1, it[1]) for it in pattern.finditer(code) if it.group().endswith("{")]
    return [(start, sources.group(code, start), name) for start, name in found]


def parameters_from(code, at):
    """Where a function's parameters begin, behind those of its types."""
    depth = 0
    for place in range(at, len(code)):
        if code[place] == "(" and depth == 0:
            return place
        depth += (code[place] == "<") - (code[place] == ">" and code[place - 1] != "-")
    return len(code) - 1


def around(places, at):
    """The names of the parts that have this place in them, from the outermost."""
    return [name for start, end, name in sorted(places) if start < at < end]


def imports_at(code, at):
    """The names that clauses at this place may cite: of two imports that of the inner block."""
    found = {}
    for it in IMPORT.finditer(code):
        start, end = block_of(code, it.start())
        if start <= at < end:
            for name, path in names_of(it):
                if name not in found or found[name][1] <= start:
                    found[name] = path, start
    return {name: path for name, (path, _) in found.items()}


def block_of(code, at):
    """The innermost braces round a place."""
    depth = 0
    for start in range(at - 1, -1, -1):
        depth += (code[start] == "}") - (code[start] == "{")
        if depth < 0:
            return start, sources.group(code, start)
    return 0, len(code)


def names_of(match):
    """The names of one import, each with its module and the name that it has there."""
    path, several, one = match.groups()
    for name in (several or one).split(","):
        there, _, here = sources.spaced(name).partition(" as ")
        if there:
            yield here or there, (path, there)


def source_files(root):
    """The files of all crates that their root files name, each with its modules; and faults for the others."""
    found, faults = [], []
    paths = [path for path in sources.tree(root, "crates") if path.suffix == ".rt"]
    waiting = [(path, []) for path in paths if path.parts[2:] in (("src", "lib.rt"), ("src", "main.rt"))]
    for path, modules in waiting:
        code = sources.code_of(sources.read(root, path))
        found.append((path, modules, code))
        folder = path.parent if path.stem in ("lib", "main") and not modules else path.with_suffix("")
        for it in MODULE.finditer(code):
            if it[2] == ";":
                waiting.append((folder / f"{it[1]}.rt", [*modules, it[1]]))
    for path in sorted(set(paths) - {path for path, *_ in found}):
        faults.append(f"{path}: no file of its crate names it by `mod`")
    return found, faults


def functions(root):
    """The functions of all crates, by name: several where impls of a trait have methods of one name."""
    found = {}
    files, faults = source_files(root)
    for path, modules, code in files:
        # No function stands in a text, and braces there are no blocks.
        bare = TEXT.sub(lambda it: " " * len(it.group()), code)
        inner, types = blocks(bare, MODULE), blocks(bare, IMPL)
        for it in FUNCTION.finditer(bare):
            start = parameters_from(bare, it.end())
            end = sources.group(bare, start)
            clauses, body, _ = sources.contract(code, end)
            names = [path.parts[1], *modules, *around(inner, it.start()), *around(types, it.start())[:1], it[2]]
            parameters = sources.spaced(code[start:end])
            is_theorem = bool(it[1]) and parameters == "()" and body == "" and bool(clauses)
            function = Function(
                "::".join(names),
                f"{path}:{sources.line_of(code, it.start(2))}",
                is_theorem,
                sources.spaced(code[it.end() : start]),
                clauses,
                body or "",
                imports_at(bare, it.start()) if clauses else {},
            )
            found.setdefault(function.name, []).append(function)
    return found, faults


# Definitions.

SIGNATURE = re.compile(r"(?:(?:abbrev|unfoldable) )?(?:pub )?(?:record |data )?([^\s:({]+)(?=[\s:({])[^:=]*:(?!:)")
LINE_COMMENT = re.compile(r"(?:^|(?<=\s))--(?:\s[^\n]*)?(?=\n|$)")
WORD = re.compile(r"[^\s(){}\[\];,.λ]+")
OURS = re.compile(r"Rattle\.(?!std\b)(\w+)\.specs\.(?!declared\b)([\w.]+)")
# What a definition or a clause may import besides the repository's own definitions.
LIBRARY = re.compile(r"Rattle\.std\.specs\.|Rattle\.\w+\.specs\.declared\.|mathlib\.|lib\.|Prim\.|native\.")


class Specs:
    """The definitions of all crates, read when they are asked for."""

    def __init__(self, root):
        self.root, self.files, self.faults = root, {}, []

    def file(self, crate, module):
        """The path of a file, its definitions, each in one line, and its imports; none where there is no such file."""
        path = f"crates/{crate}/specs/{module.replace('.', '/')}.antt"
        if path not in self.files:
            there = Path(self.root, path).is_file()
            self.files[path] = self.read(path, sources.read(self.root, path)) if there else None
        return path, self.files[path]

    def read(self, path, text):
        found, imports, name = {}, {}, None
        if "{-" in text:
            self.faults.append(f"{path}: a comment in braces, which the list does not read")
        text = LINE_COMMENT.sub("", text)
        for it in IMPORT.finditer(text):
            imports.update(names_of(it))
        for line in text.split("\n"):
            signature = SIGNATURE.match(line)
            if re.match(r"(?:pub )?(?:use|mod) ", line):
                name = None
                if "*" in re.split(r"[{◌]", line)[0]:
                    self.faults.append(f"{path}: an import of a whole module: {line}")
            elif line and not line[0].isspace() and not self.is_clause(line, name):
                if not signature:
                    self.faults.append(f"{path}: cannot be read: {line}")
                    continue
                name = signature[1]
                if name in found or "◌" in name:
                    self.faults.append(f"{path}: {name} is defined twice, or is an operator")
                found[name] = ""
            if re.match(r"\s+(?:pub )?(?:module|use|open|syntax|infix\w*)\b", line):
                self.faults.append(f"{path}: names from elsewhere inside of {name}: {line}")
            if name:
                found[name] += " " + line
        return {name: " ".join(text.split()) for name, text in found.items()}, imports

    @staticmethod
    def is_clause(line, name):
        return name is not None and (re.match(r"unfolding\b|[)\]}]", line) or re.split(r"[\s=]", line)[0] == name)


def words_of(text, imports):
    """The names in a text that are imported; those of operators are always taken for such."""
    words = set(WORD.findall(text))
    return [name for name in imports if name in words or any(part in words for part in name.split("◌") if part != name)]


def origins(words, imports):
    """Where these names come from, in one line."""
    return " ".join(f"{word}={'.'.join(imports[word])}" for word in sorted(words))


def checksum(text):
    return hashlib.sha256(text.encode()).hexdigest()[:16]


def reached(specs, kept):
    """The checksum of each definition that the clauses come to, by file and name, and what cannot be followed."""
    found, faults = {}, []
    waiting = [(*function.imports[word], function.place) for function in kept for word in function.words()]
    while waiting:
        module, name, place = waiting.pop()
        ours = OURS.fullmatch(module)
        if not ours:
            if not LIBRARY.match(module + "."):
                faults.append(f"{place}: {name} of {module} is no definition of specs/")
            continue
        path, file = specs.file(*ours.groups())
        own, imports = file or ({}, {})
        if (path, name) in found:
            continue
        if name in own:
            words = words_of(own[name], imports)
            beside = sorted(word for word in set(WORD.findall(own[name])) & own.keys() - {name})
            found[path, name] = checksum(f"{own[name]} {origins(words, imports)}")
            waiting += [(*imports[word], path) for word in words] + [(module, word, path) for word in beside]
        elif name in imports:
            waiting.append((*imports[name], path))
        else:
            faults.append(f"{place}: {name} is not defined in {path}")
    return found, faults + specs.faults


# The list.


def citations(root, everything):
    """The functions that each page names, and what it names in vain."""
    crates = {name.split("::")[0] for name in everything}
    modules = {name.rpartition("::")[0] for name in everything}
    named, faults = {page: set() for page in PAGES}, []
    for page in PAGES:
        text = sources.read(root, page)
        for it in CITED.finditer(text):
            place = f"{page}:{sources.line_of(text, it.start())}"
            if it[1].split("::")[0] not in crates or it[1] in modules:
                continue
            if it[1] not in everything:
                faults.append(f"{place}: there is no function {it[1]}")
            elif it[2] and it[2] not in [name for _, name, _ in everything[it[1]][0].clauses]:
                faults.append(f"{place}: {it[1]} has no clause {it[2]}")
            else:
                named[page].add(it[1])
    return named, faults


def called(everything):
    """The functions that the program of the cases comes to call, as it names them."""
    found, waiting = set(), ["main"]
    while waiting:
        name = waiting.pop()
        for function in everything.get(f"{CASES}::{name}", []):
            module = function.name.split("::")[1:-1]
            for other in set(CALLED.findall(function.body)):
                for path in (other, "::".join([*module, other])):
                    if path not in found:
                        found.add(path)
                        waiting.append(path)
    return found


def listed_now(root):
    """The list as it would be written now, line by key, and faults that no list can have."""
    everything, faults = functions(root)
    named, in_vain = citations(root, everything)
    calls, all_named = called(everything), set().union(*named.values())
    kept = []
    for name, several in sorted(everything.items()):
        is_theorem = any(function.is_theorem for function in several)
        if not (is_theorem or name in all_named or re.match(rf"{sources.CALLED_CRATE}::(?:\w+::)*mf_\w+$", name)):
            continue
        kept.append(several[0])
        if len(several) > 1:
            faults.append(f"{several[1].place}: there are {len(several)} functions {name}")
        if is_theorem and name not in named[MAP]:
            faults.append(f"{several[0].place}: {name} stands in no row of {MAP}")
        if is_theorem and name.removeprefix(f"{CASES}::") not in calls:
            faults.append(f"{several[0].place}: {CASES} does not call {name}")
        if is_theorem and any(not clause for _, clause, _ in several[0].clauses):
            faults.append(f"{several[0].place}: {name} has a clause without a name")
    lines = {}
    for function in kept:
        lines[function.name] = function.kind()
        for word, clause, text in function.clauses:
            lines[f"{function.name} {word} {clause}".strip()] = text
    found, lost = reached(Specs(root), kept)
    lines.update({f"{path} {name}": found[path, name] for path, name in sorted(found)})
    return lines, [*faults, *in_vain, *lost]


def written(lines):
    return HEAD + "".join(f"{key}: {text}\n" for key, text in lines.items())


def listed(root):
    """The list as it stands."""
    rows = [line for line in sources.read(root, LIST).split("\n") if line and not line.startswith("#")]
    return dict(row.split(": ", 1) for row in rows)


def theorems(root):
    now, faults = listed_now(root)
    before = listed(root)
    for key in [*before, *(key for key in now if key not in before)]:
        if key not in now:
            faults.append(f"{LIST}: {key} is gone")
        elif key not in before:
            faults.append(f"{LIST}: {key} is not listed: --renew, if it is meant")
        elif now[key] != before[key]:
            faults.append(f"{LIST}: {key} was {before[key]} and is {now[key]}: --renew, if it is meant")
    return len(now), faults


def main(arguments):
    root = Path(__file__).resolve().parent.parent
    if arguments == ["--renew"]:
        lines, faults = listed_now(root)
        Path(root, LIST).write_text(written(lines), encoding="utf-8")
        print(*faults, sep="\n", end="\n" if faults else "")
        print(f"checks: theorems: {len(lines)} lines written, {len(faults)} faults")
        return 1 if faults else 0
    if arguments:
        return "checks: theorems [--renew]"
    return sources.main("theorems", theorems, root)


if __name__ == "__main__":
    sys.exit(main(sys.argv[1:]))
