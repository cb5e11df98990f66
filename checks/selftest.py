"""Tries the checks: each passes a small repository without faults, and refuses it with one fault put in.

    python3 -B checks/selftest.py

The last line is 'checks: selftest: N passed, M failed'; ends with 0 only if M is 0.
"""

import sys
import tempfile
from concurrent.futures import ProcessPoolExecutor
from pathlib import Path

import counts
import examples
import fragen
import gate
import jahresindex
import replays
import sources
import theorems
import weakened

# What the parts of ./test with numbers printed.
LEFT = counts.LEFT
PARTS = ["ci", "host", "findings", "comparison"]
CHECKS = {
    **sources.CHECKS,
    "examples": examples.examples,
    "fragen": fragen.fragen,
    "gate": lambda root: gate.gate(sources.read(root, f"{LEFT}/ci")),
    "jahresindex": jahresindex.jahresindex,
    "numbers": counts.numbers,
    "replays": replays.replays,
    "runs": lambda root: counts.runs(root, Path(root, LEFT), PARTS),
}
# Some of the faults are to wait for an end that does not come.
fragen.SECONDS = replays.SECONDS = 2

REPLY = "reply answer.old (eins_answer n)"
EQUATION = "(result, answer.new) ≡ " + REPLY
# The library, and the crate of the exports.
LIB, EXPORTS = "crates/mako_fristen/src/lib.rt", "crates/mako_fristen_c/src/lib.rt"
DEEP = "crates/mako_fristen_c/src/unter/tief.rt"
SPEC = "crates/andere/specs/Zwei.antt"
PAPER = "docs/host-calls.md"
HOST, HEADER = sources.HOST, sources.HEADER
README, LIESMICH = "README.md", "LIESMICH.md"
PROGRAM = "crates/fragen/out/fragen"
STORED = "crates/fragen/stdout"
TABLE, ENTRIES = jahresindex.CODE, jahresindex.PROOFS
EDIT = "crates/andere/must-fail/x.edit"
LIST = counts.LIST
IMPORTS = """ghost use Rattle.std.specs.Prelude.{◌≡◌};
ghost use Rattle.antworten.specs.Eins.{reply, eins_answer};
ghost use Rattle.antworten.specs.Zwei.portfolio;
"""
ZWEI = """(
    from: &[u32],
    counts: &mut [u32],
    answer: &mut [u8],
) -> u8
    ensures { (result, counts.new, answer.new)
        ≡ portfolio from.now counts.old
        answer.old }
"""
EINS_IN_C = "uint8_t mf_eins(uint32_t n, uint8_t *answer, size_t answer_len);\n"
ZWEI_IN_C = """uint8_t mf_zwei(const uint32_t *from, size_t from_len, uint32_t *counts, size_t counts_len,
                uint8_t *answer, size_t answer_len);
"""
# Programs that replay stored cases: here an answer is the beginning of its question, or what stands in the first list.
REPLAY = f"#!{sys.executable} -IS" + """
import sys
data, at, total, equal = sys.stdin.buffer.read(), 0, 0, 0
def word(place):
    return int.from_bytes(data[at + place : at + place + 4], "little")
def taken(size):
    global at
    at += size
    return data[at - size : at]
while at < len(data):
    total += 1
    CASE
    equal += right
    if not right:
        print(total)
print(f"{total} WHAT, {equal} equal")
"""
ONE_CASE = {
    "vektoren": """line = taken(194)
    right = line[:64] == line[129:193]""",
    "vektoren_fragen": """asked, lent = word(0), word(4)
    read = taken(8 + asked)[8:]
    number, answers = taken(1), taken(lent)
    right = number == b"\\7" and answers == read[:lent]""",
    "vektoren_portfolio": """first, second, third, lent = (word(4 * place) for place in range(4))
    read = taken(16 + 4 * (first + second))[16:]
    number, counts, answer = taken(1), taken(4 * third), taken(lent)
    right = number == b"\\0" and counts == read[: 4 * third] and answer == bytes(lent)""",
}


def words(*given):
    return b"".join(number.to_bytes(4, "little") for number in given)


CASES = {
    "vektoren": [f"{n:0128x} {n:0128x}"[:193].encode() + b"\n" for n in range(2**300, 2**300 + 5)],
    "vektoren_fragen": [words(64, n) + bytes(range(64)) + b"\7" + bytes(range(n)) for n in (0, 32, 64, 33)],
    "vektoren_portfolio": [
        words(n, n, n, 32) + 2 * words(*range(n)) + b"\0" + words(*range(n)) + bytes(32) for n in range(4)
    ],
}
REPLAYS = {}
for name, (cases, *_) in replays.PROGRAMS.items():
    text = REPLAY.replace("CASE", ONE_CASE[name]).replace("WHAT", cases)
    number = len(CASES[name])
    REPLAYS[f"crates/{name}/out/{name}"] = text
    REPLAYS[f"crates/{name}/stdin"] = b"".join(CASES[name])
    REPLAYS[f"crates/{name}/stdout"] = f"{number} {cases}, {number} equal\n"
RESULT = "test result: ok. 2 passed; 0 failed; 0 ignored; 0 measured; 0 filtered out; finished in 0.00s\n"
REFUSED = "rt: must-fail andere/x.edit: refused, as it must be"
GOOD = {
    "crates.txt": """# The crates.
vektoren: # none below it
vektoren_fragen:
vektoren_portfolio:
andere: mako_fristen
mako_fristen: # none below it
jahresindex:
fragen backend=rattle: mako_fristen
mako_fristen_c staticlib: mako_fristen
eins:
""",
    LIB: f"""{IMPORTS}
/// One.
pub fn mf_eins(n: u32, answer: &mut [u8]) -> u8
    ensures {{ {EQUATION} }}
{{
    if n == 1 {{ reply(answer) }} else {{ 0 }}
}}

/// Two.
pub fn mf_zwei{ZWEI}{{
    0
}}
""",
    EXPORTS: f"""// Two calls.
{IMPORTS}
/// One.
#[unsafe(no_mangle)]
pub extern "C" fn mf_eins(n: u32, answer: &mut [u8]) -> u8
    ensures {{ {EQUATION} }}
{{
    mako_fristen::mf_eins(n, answer)
}}

/// Two, wrapped.
#[unsafe(no_mangle)]
pub extern "C" fn mf_zwei{ZWEI}{{
    mako_fristen::mf_zwei(
        from,
        counts,
        answer,
    )
}}
""",
    DEEP: "/// Doubled.\npub fn doubled(n: u32) -> u32 {\n    n + n\n}\n",
    "crates/mako_fristen/specs/Eins.antt": "abbrev pub eins : Nat\npub record Paar : Type 0 where\n  pub zwei : Nat\n",
    SPEC: "pub mod Zwei\nunfoldable pub drei : Nat\n",
    "crates/andere/proofs/eins/Answers.antt": "x\n",
    EDIT: "One answer is another.\nfile: src/lib.rt\nold: 0\nnew: 1\n",
    PAPER: "Calls\n\n| call | fills |\n|---|---|\n| `mf_eins`, `mf_zwei` | kind |\n\n| `mf_drei` |\n",
    HOST: "//! mf_drei()\ncalls! {\n    mf_eins(n: u32);\n    mf_zwei(&from: u32, *counts: u32);\n}\n",
    HEADER: "/* uint8_t mf_drei(void); */\n" + EINS_IN_C + ZWEI_IN_C,
    README: """# Example

    $ ./fristen eins
    one

Text.

    ./fristen zwei

    two
    lines

    other
""",
    LIESMICH: """# Beispiele

```text
$ ./fristen zwei
two
lines

$ ./fristen eins
one
```
""",
    "fristen": '#!/bin/sh\n[ "$1" = eins ] && echo one || printf "two\\nlines\\n"\n',
    PROGRAM: """#!/usr/bin/env python3
import os
most, got = 65536, b""
try:
    while len(got) <= most and (piece := os.read(0, most + 1 - len(got))):
        got += piece
except OSError:
    got = b"?"
if len(got) % 32 == 0 and len(got) <= most:
    os.write(1, bytes(255 - byte for byte in got))
""",
    "crates/fragen/stdin": "ab" * 32768,
    STORED: bytes(255 - byte for byte in b"ab" * 32768),
    TABLE: f"const TABLE: [u32; 905] = [\n{jahresindex.printed('rt')}];\n",
    ENTRIES: "entries =\n" + jahresindex.printed("antt"),
    **REPLAYS,
    "crates/eins/src/lib.rt": "#[cfg(test)]\nmod tests {\n    #[test]\n    fn one() {}\n}\n",
    "host/src/lib.rs": "//! ```\n//! one();\n//! ```\n//!\n//! ```text\n//! two\n//! ```\n/* #[test] */\n",
    "host/src/bin/x.rs": "/// ```\n/// three();\n/// ```\n#[test]\nfn one() {}\n",
    "host/README.md": "```rust\nfour();\n```\n\n```toml\nfive = 5\n```\n",
    "host/tests/eins.rs": "//! ```\n//! ```\n#[test]\nfn one() {}\n// #[test]\n",
    "oracle/harness/tests/eins.rs": "#[test]\nfn one() {}\n\n#[test]\nfn two() {}\n",
    LIST: """# What writes it.
examples host/README.md 1
examples host/src/lib.rs 1
exports 2
must-fail andere 1
replayed vektoren answers 5
replayed vektoren_fragen answers 4
replayed vektoren_fragen files 4
replayed vektoren_portfolio counts 6
replayed vektoren_portfolio portfolios 4
rows mf_eins 2
rows mf_zwei 1
tests crates/eins/src/lib.rt 1
tests host/src/bin/x.rs 1
tests host/tests/eins.rs 1
tests oracle/harness/tests/eins.rs 2
""",
    f"{LEFT}/ci": f"""{REFUSED}: src/lib.rt:3:4: error: no (for a reason)
rt: ok; handles allowed: none; must-fail edits: 1 refused; every proof and must-fail edit was done in this run
1 passed, 0 failed
""",
    f"{LEFT}/host": "running 2 tests\n..\n" + RESULT + "\n" + RESULT,
    f"{LEFT}/findings": RESULT,
    f"{LEFT}/comparison": "".join(
        f"{call:36} {'every date':32} {3:12} {0:12}\n" for call in ["mf_eins", "mf_eins", "mf_zwei"]
    ),
    "NOTICE": "x" * 200 + "\n",
    "crates/andere/stdin": "x" * 200 + "\n",
    "target/x.rt": "pub fn f() {}\n" + "x" * 200 + "\n",
    "crates/andere/out/x.rt": "pub fn f() {}\n" + "x" * 200 + "\n",
    "crates/andere/out/specs/x.antt": "abbrev pub drei : Nat\n",
}


def without(text):
    """The file with this text taken out."""
    return lambda content: content.replace(text, "", 1)


def put(old, new):
    return lambda content: content.replace(old, new, 1)


def after(text, more):
    return put(text, text + more)


def added(text):
    return lambda content: content + text


def only(text):
    return lambda content: text


def gone(content):
    return None


def cut(size):
    """The file without so many bytes at its end."""
    return lambda content: content[:-size]


CI, COMPARED = f"{LEFT}/ci", f"{LEFT}/comparison"
ORACLE = "oracle/harness/tests/eins.rs"
VEKTOREN, ASKED, COUNTED = (f"crates/{name}/out/{name}" for name in replays.PROGRAMS)
LINES, FILES, LISTS = (f"crates/{name}/stdin" for name in replays.PROGRAMS)
SUM = "crates/vektoren/stdout"
EXPORT = '\n/// New.\n#[unsafe(no_mangle)]\npub extern "C" fn mf_neu(answer: &mut [u8]) -> u8\n{\n    0\n}\n'
PROMISED = "    ensures { " + EQUATION + " }\n"
NAMED = "    ensures answered { " + EQUATION + " }\n"
STARRED = "    ensures* { ⌜ n < 3 ⌝ }\n"
REQUIRES = "    requires { n < 3 }\n"
SMALL, OWNED = REQUIRES.replace(" {", " small {"), REQUIRES.replace(" {", "* {")
ONE = "\n/// One again.\npub fn mf_eins(n: u32, answer: &mut [u8]) -> u8\n" + PROMISED + "{\n    0\n}\n"
BODY = "mako_fristen::mf_eins(n, answer)"

# The check, what is wrong, the file, the change, and a part of what the fault must say.
BAD = [
    ("files", "a file outside of crates", "x.rt", only("x\n"), "x.rt: in no crate"),
    ("files", "a file in host", "host/src/x.antt", only("x\n"), "host/src/x.antt: in no crate"),
    ("files", "a crate that is not listed", "crates/neu/lib.rt", only("x\n"), "crates/neu/lib.rt: in no"),
    ("files", "no list of crates", "crates.txt", gone, "crates.txt"),
    ("files", "code of a crate outside of src", "crates/andere/x.rt", only("x\n"), "x.rt: not below src"),
    ("files", "code in data", "crates/andere/data/x.rt", only("x\n"), "x.rt: not below src"),
    ("files", "specs in src", "crates/andere/src/x.antt", only("x\n"), "x.antt: not below specs or proofs"),
    ("files", "a folder out that is no crate's", "host/out/x.rt", only("x\n"), "host/out/x.rt: in no crate"),
    ("files", "a crate in a comment", "crates.txt", put("jahresindex:", "# jahresindex:"), "tabelle.rt: in no crate"),
    ("files", "a folder that is not listed", "crates/neu/x.md", only("x\n"), "crates/neu: a folder that"),
    ("files", "an empty one", "crates/neu/", only(""), "crates/neu: a folder that"),
    ("files", "one that is hidden", "crates/.neu/x", only("x\n"), "crates/.neu: a folder that"),
    ("files", "a listed one that is not there", "crates.txt", added("neu:\n"), "crates.txt: neu has no folder"),
    ("exports", "no ensures", EXPORTS, without(PROMISED), "lib.rt:8: mf_eins has 0 ensures"),
    ("exports", "an ensures in a comment", EXPORTS, put("    ens", "    // ens"), "mf_eins has 0 ensures"),
    ("exports", "no ensures below src/", DEEP, added(EXPORT), "tief.rt:8: mf_neu has 0 ensures"),
    ("exports", "in another crate", "crates/andere/src/lib.rt", only(EXPORT), "mf_neu is exported outside"),
    ("exports", "in the library", LIB, added(EXPORT), "mf_neu is exported outside"),
    ("exports", "two ensures", EXPORTS, put(PROMISED, PROMISED + PROMISED), "mf_eins has 2 ensures"),
    ("exports", "two with names", EXPORTS, put(PROMISED, NAMED + NAMED), "mf_eins has 2 ensures"),
    ("exports", "a starred one", EXPORTS, put("ensures", "ensures*"), "mf_eins promises no equation"),
    ("exports", "a starred one beside it", EXPORTS, put(PROMISED, PROMISED + STARRED), "mf_eins has 2 ensures"),
    ("exports", "a requires", EXPORTS, put(PROMISED, REQUIRES + PROMISED), "mf_eins asks something"),
    ("exports", "one with a name", EXPORTS, put(PROMISED, SMALL + PROMISED), "mf_eins asks something"),
    ("exports", "a starred requires", EXPORTS, put(PROMISED, OWNED + PROMISED), "mf_eins asks something"),
    ("exports", "a later requires", EXPORTS, put(PROMISED, PROMISED + REQUIRES), "mf_eins asks something"),
    ("exports", "a requires for an ensures", EXPORTS, put(PROMISED, REQUIRES), "mf_eins asks something"),
    ("exports", "a ghost value", EXPORTS, put(PROMISED, PROMISED + "    ghost { g }\n"), "mf_eins asks something"),
    ("exports", "a clause behind the body", EXPORTS, put("\n/// Two", REQUIRES + "/// Two"), "cannot be read"),
    ("exports", "no equation", EXPORTS, put(EQUATION, "result ≤ 8"), "mf_eins promises no equation"),
    ("exports", "an equation of the number alone", EXPORTS, put(EQUATION, "result ≡ 0"), "promises no equation"),
    ("exports", "a condition", EXPORTS, put("{ (r", "{ n < 3 → (r"), "promises no equation"),
    ("exports", "a second equation", EXPORTS, put(EQUATION, EQUATION + " × n ≡ n"), "promises no equation"),
    ("exports", "a further fact", EXPORTS, put(EQUATION, EQUATION + " × n < 3"), "more or less than an equation"),
    ("exports", "an equation compared", EXPORTS, put(EQUATION, EQUATION + " ↔ p"), "more or less than an"),
    ("exports", "an equation with itself", EXPORTS, put(REPLY, "(result, n)"), "mf_eins has on the right"),
    ("exports", "one with its answer", EXPORTS, put("answer.old", "answer.new"), "mf_eins has on the right"),
    ("exports", "a slice left out", EXPORTS, put("counts.new, ", ""), "mf_zwei promises nothing of a"),
    ("exports", "what was there", EXPORTS, put("counts.new, ", "counts.old, "), "mf_zwei promises no equation"),
    ("exports", "other clauses than the call's", EXPORTS, put("eins_answer n", "eins_answer 1"), "has other clauses"),
    ("exports", "clauses of the call's alone", LIB, put("eins_answer n", "eins_answer 1"), "has other clauses"),
    ("exports", "a name that the call's lacks", EXPORTS, put(PROMISED, NAMED), "mf_eins has other clauses"),
    ("exports", "a requires of the call", LIB, put(PROMISED, REQUIRES + PROMISED), "mf_eins has other clauses"),
    ("exports", "a name from elsewhere", EXPORTS, put("specs.Eins", "specs.Null"), "specs.Null.reply, which those in"),
    ("exports", "one alone", EXPORTS, put("specs.Zwei", "specs.Null"), "specs.Null.portfolio, which those in"),
    ("exports", "another name", EXPORTS, put("reply,", "null as reply,"), "Eins.null as reply, which those in"),
    ("exports", "other parameters", EXPORTS, put("n: u32", "n: u16"), "mf_eins has other parameters"),
    ("exports", "another call", EXPORTS, put(BODY, "mako_fristen::mf_zwei(n, answer)"), "does not hand its"),
    ("exports", "a call of its own", EXPORTS, put(BODY, "mf_eins(n, answer)"), "mf_eins does not hand its"),
    ("exports", "another argument", EXPORTS, put("(n, answer)", "(1, answer)"), "mf_eins does not hand its"),
    ("exports", "another order", EXPORTS, put("from,\n        counts", "counts,\n        from"), "mf_zwei does not"),
    ("exports", "more than the call", EXPORTS, put(BODY, "answer[0] = 1;\n    " + BODY), "mf_eins does not hand its"),
    ("exports", "a call that is not exported", LIB, added(ONE.replace("eins", "drei")), "mf_drei is not both"),
    ("exports", "a call that is private", LIB, put("pub fn mf_eins", "fn mf_eins"), "mf_eins is not one call of"),
    ("exports", "two calls of a name", LIB, added(ONE), "mf_eins is not one call of"),
    ("exports", "a mark elsewhere", EXPORTS, put('pub extern "C" fn', "pub fn"), "lib.rt:7: no export"),
    ("exports", "an export without its mark", EXPORTS, without("#[unsafe(no_mangle)]\n"), "lib.rt:7: no export"),
    ("exports", "the old mark", EXPORTS, put("unsafe(no_mangle)", "no_mangle"), "lib.rt:7: no export"),
    ("exports", "a name of its own", EXPORTS, put("(no_mangle)", '(export_name = "mf_eins")'), "lib.rt:7: no export"),
    ("exports", "one that the paper lacks", EXPORTS, added(EXPORT), "docs/host-calls.md: mf_neu is not both"),
    ("exports", "one that the host lacks", HOST, without("mf_eins(n: u32);"), "ffi.rs: mf_eins is not"),
    ("exports", "one that the header lacks", HEADER, put("mf_eins(", "eins("), "mako_fristen.h: mf_eins is not"),
    ("exports", "one that is a comment there", HEADER, put("uint8_t mf_eins", "// uint8_t mf_eins"), "mf_eins is not"),
    ("exports", "a parameter too few in C", HEADER, without("uint32_t n, "), "mf_eins is declared otherwise"),
    ("exports", "one too many in C", HEADER, put("uint32_t n,", "uint32_t n, uint32_t m,"), "mf_eins is declared"),
    ("exports", "a number of another size in C", HEADER, put("uint32_t n", "uint16_t n"), "mf_eins is declared"),
    ("exports", "another name of one in C", HEADER, put("uint32_t n", "uint32_t m"), "mf_eins is declared otherwise"),
    ("exports", "a list that may be written in C", HEADER, without("const "), "mf_zwei is declared otherwise"),
    ("exports", "another result in C", HEADER, put("uint8_t mf_eins", "int mf_eins"), "mf_eins is declared otherwise"),
    ("exports", "another order in C", HEADER, only(ZWEI_IN_C + EINS_IN_C), "mako_fristen.h: has another order"),
    ("exports", "no header", HEADER, gone, "host/include/mako_fristen.h"),
    ("exports", "one that is not exported", PAPER, put("`mf_eins`", "`mf_neu`"), "mf_neu is not both"),
    ("exports", "one declared twice", HOST, put("mf_zwei", "mf_eins(); mf_zwei"), "3 calls with 2 names"),
    ("exports", "one exported twice", EXPORTS, added(EXPORT.replace("neu", "eins")), "3 exports with 2 names"),
    ("exports", "no table", PAPER, only("Calls\n"), "docs/host-calls.md: has 0 calls"),
    ("exports", "no host", HOST, gone, "host/src/ffi.rs"),
    ("exports", "no exports", EXPORTS, gone, "there is nothing to look at"),
    ("exports", "no library", LIB, gone, "crates/mako_fristen/src"),
    ("docs", "no comment", LIB, without("/// One.\n"), "lib.rt:5: mf_eins has no doc comment"),
    ("docs", "none of an export", EXPORTS, without("/// One.\n"), "lib.rt:7: mf_eins has no doc comment"),
    ("docs", "an ordinary comment", LIB, put("/// One.", "// One."), "mf_eins has no doc comment"),
    ("docs", "an empty comment", LIB, put("/// One.", "///"), "mf_eins has no doc comment"),
    ("docs", "a line between", LIB, put("/// One.\n", "/// One.\n\n"), "mf_eins has no doc comment"),
    ("docs", "none below src/", DEEP, without("/// Doubled.\n"), "tief.rt:1: doubled has no doc comment"),
    ("docs", "none in an impl", LIB, added("impl Paar {\n    pub fn eins(self)"), "eins has no doc comment"),
    ("docs", "bytes that are no text", LIB, only(b"\xff"), "utf-8"),
    ("names", "two of a crate", SPEC, added("abbrev pub drei : Nat\n"), "Zwei.antt:3: drei is also"),
    ("names", "two of two crates", SPEC, added("abbrev pub eins : Nat\n"), "Eins.antt:1: eins is also"),
    ("names", "a record and a definition", SPEC, added("unfoldable pub Paar : Nat\n"), "Paar is also"),
    ("names", "two records", SPEC, added("pub record Paar (m : Nat) : Type 0 where\n"), "Paar is also"),
    ("names", "a set of rules", SPEC, added("pub ruleset drei where\n"), "drei is also"),
    ("names", "a data type", SPEC, added("pub data Paar : Type 0 where\n"), "Paar is also"),
    ("edits", "one of a definition", EDIT, put("src/lib.rt", "specs/Eins.antt"), "x.edit:2: changes specs/Eins.antt"),
    ("edits", "one of a proof", EDIT, added("file: proofs/Eins.antt\n"), "x.edit:5: changes proofs/Eins.antt"),
    ("edits", "a way out of src", EDIT, put("src/", "src/../specs/"), "x.edit:2: changes src/../specs/lib.rt"),
    ("edits", "one that names no file", EDIT, put("file: ", "old: "), "x.edit: names no file"),
    ("edits", "one elsewhere", "crates/andere/x.edit", only("file: src/lib.rt\n"), "x.edit: not right in must-fail"),
    ("edits", "one further down", "crates/andere/must-fail/a/x.edit", only("file: src/lib.rt\n"), "not right in"),
    ("edits", "no edits", EDIT, gone, "there is nothing to look at"),
    *[
        ("lines", f"121 characters in {file}", file, added("ä" * 121 + "\n"), f"{file}:{line}: 121 characters")
        for file, line in [
            (LIB, 24),
            (SPEC, 3),
            (HOST, 6),
            (HEADER, 5),
            (EDIT, 5),
            (README, 14),
            ("host/Cargo.toml", 1),
            ("fristen", 3),
            ("checks/x.py", 1),
        ]
    ],
    ("lines", "a block without an end", README, added("```\n" + "x" * 121 + "\n"), "README.md: a block"),
    ("lines", "bytes that are no text", LIB, only(b"\xff"), "utf-8"),
    ("examples", "no examples", README, only("# Example\n\n    ./test\n"), "README.md: there is no example"),
    ("examples", "no README", README, gone, "README.md"),
    ("examples", "no front page in German", LIESMICH, gone, "LIESMICH.md"),
    ("examples", "another in a fenced block", LIESMICH, put("one\n", "1\n"), "LIESMICH.md:8: ./fristen eins: prints"),
    ("examples", "none below it there", LIESMICH, without("one\n"), "LIESMICH.md:8: ./fristen eins: no output"),
    ("examples", "another output", README, put("    one", "    1"), "README.md:3: ./fristen eins: prints"),
    ("examples", "a line too few", README, without("    lines\n"), "README.md:8: ./fristen zwei: prints"),
    ("examples", "no output", README, without("    one\n"), "README.md:3: ./fristen eins: no output"),
    ("examples", "no program", "fristen", gone, "fristen"),
    ("fragen", "no program", PROGRAM, gone, PROGRAM),
    ("fragen", "too few are stored", STORED, only(b"x"), "are stored"),
    ("fragen", "another answer", STORED, only(b"x" * 65536), "in one piece: writes"),
    ("fragen", "one piece is read", PROGRAM, put("while len(got) <= most and", "if"), "in pieces: writes"),
    ("fragen", "half a record is answered", PROGRAM, put("% 32", "% 1"), "33 bytes: writes"),
    ("fragen", "a file too long is answered", PROGRAM, put("65536", "65568"), "65568 bytes: writes"),
    ("fragen", "what cannot be read is answered", PROGRAM, put('b"?"', 'b"?" * 32'), "cannot be read"),
    ("gate", "a limit of the prover", CI, after("must be", " (only by a limit)"), "x.edit: refused, but only by a"),
    ("gate", "a proof that does not fit", CI, after("must be", " (only because)"), "x.edit: refused, but only because"),
    ("gate", "another word against one", CI, after("must be", " (though)"), "andere/x.edit: refused, but though"),
    ("gate", "an edit that is bad", CI, added("rt: must-fail andere/y.edit: BAD EDIT: x\n"), "andere/y.edit: BAD EDIT"),
    ("gate", "one in a wrong place", CI, added("rt: crates/a/must-fail/b/x: BAD EDIT: x\n"), "b/x: BAD EDIT"),
    ("gate", "one that is not tried", CI, added("rt: must-fail andere/y.edit: NOT TRIED: x\n"), "y.edit: NOT TRIED"),
    ("gate", "one that is proved", CI, added("rt: must-fail andere/y.edit: NOT REFUSED: x\n"), "y.edit: NOT REFUSED"),
    ("gate", "one that is not named", CI, put("edits: 1", "edits: 2"), "2 edits refused, and 1 named"),
    ("gate", "one that is not counted", CI, without("must-fail edits: 1 refused; "), "0 edits refused, and 1 named"),
    ("gate", "no good end", CI, without("rt: ok"), "0 lines that begin with 'rt: ok'"),
    ("gate", "two of them", CI, added("rt: ok\n"), "2 lines that begin with 'rt: ok'"),
    ("numbers", "an edit fewer", EDIT, gone, "must-fail andere: fell from 1 to 0"),
    ("numbers", "an edit more", "crates/eins/must-fail/x.edit", only("x\n"), "must-fail eins: rose from 0 to 1"),
    ("numbers", "a test fewer", "host/tests/eins.rs", without("#[test]\n"), "host/tests/eins.rs: fell from 1 to 0"),
    ("numbers", "one in a comment", ORACLE, put("#[test]", "// #[test]"), "harness/tests/eins.rs: fell from 2 to 1"),
    ("numbers", "one fewer in src/", "host/src/bin/x.rs", without("#[test]\n"), "host/src/bin/x.rs: fell from 1 to 0"),
    ("numbers", "a test more", ORACLE, added("#[test]\nfn three() {}\n"), "harness/tests/eins.rs: rose from 2 to 3"),
    ("numbers", "a file of tests fewer", ORACLE, gone, "tests oracle/harness/tests/eins.rs: fell from 2 to 0"),
    ("numbers", "one more", "host/tests/zwei.rs", only("#[test]\n"), "tests host/tests/zwei.rs: rose from 0 to 1"),
    ("numbers", "a test that is ignored", ORACLE, put("\nfn", "\n#[ignore]\nfn"), "eins.rs:2: a test is ignored"),
    ("numbers", "one with a reason", "host/tests/eins.rs", added('#[ignore = "x"]\n'), "eins.rs:6: a test is ignored"),
    ("numbers", "one by a condition", "host/tests/eins.rs", added("#[cfg_attr(unix, ignore)]\n"), "is ignored"),
    ("numbers", "one of a crate", "crates/eins/src/lib.rt", put("]\n    fn", "]\n    #[ignore]\n    fn"), "is ignored"),
    ("numbers", "an example fewer", "host/README.md", put("rust", "text"), "examples host/README.md: fell from 1 to 0"),
    ("numbers", "one that is ignored", "host/src/lib.rs", put("```", "```ignore"), "lib.rs: an example is ignored"),
    ("numbers", "an export fewer", EXPORTS, without("#[unsafe(no_mangle)]\n"), "exports: fell from 2 to 1"),
    ("numbers", "a stored answer fewer", LINES, cut(194), "replayed vektoren answers: fell from 5 to 4"),
    ("numbers", "a stored file with fewer", FILES, only(b"".join(4 * CASES["vektoren_fragen"][:1])), "answers: fell"),
    ("numbers", "a count fewer", LISTS, only(b"".join(CASES["vektoren_portfolio"][:3])), "counts: fell from 6 to 3"),
    ("numbers", "half a case", LINES, cut(1), "crates/vektoren/stdin: case 5 cannot be read"),
    ("numbers", "another sum", SUM, put("5 equal", "4 equal"), "crates/vektoren/stdout: does not say that all 5"),
    ("numbers", "a line of the list fewer", LIST, without("exports 2\n"), "exports: rose from 0 to 2"),
    ("numbers", "one that cannot be read", LIST, put("exports 2", "exports two"), "numbers.txt:4: cannot be read"),
    ("numbers", "one twice", LIST, put("exports 2\n", "exports 2\nexports 2\n"), "numbers.txt:5: cannot be read"),
    ("numbers", "another order", LIST, put("exports 2\nmust-fail andere 1", "must-fail andere 1\nexports 2"), "sorted"),
    ("numbers", "a number of nothing", LIST, put("exports", "other 1\nexports"), "other: fell from 1 to 0"),
    ("numbers", "no list", LIST, gone, LIST),
    ("replays", "no program", VEKTOREN, gone, VEKTOREN),
    ("replays", "all are taken for equal", VEKTOREN, put("right = ", "right = True or "), "case 1 wrong (answer"),
    ("replays", "the last digit", VEKTOREN, put("[129:193]", "[129:192] + line[63:64]"), "(answer, byte 64 of 64)"),
    ("replays", "the last case", VEKTOREN, put("right = ", "right = total == 5 or "), "case 5 wrong (answer"),
    ("replays", "another number is named", VEKTOREN, put("print(total)", "print(total - 1)"), "case 1 wrong"),
    ("replays", "the number of a file", ASKED, put('number == b"\\7"', "True"), "case 1 wrong (number"),
    ("replays", "an answer of a file", ASKED, put("answers == read[:lent]", "True"), "case 2 wrong (answers, byte 1"),
    ("replays", "the number of a portfolio", COUNTED, put('number == b"\\0"', "True"), "case 1 wrong (number"),
    ("replays", "a count", COUNTED, put("counts == read[: 4 * third]", "True"), "case 2 wrong (counts, byte 1 of 4)"),
    ("replays", "the answer of a portfolio", COUNTED, put("answer == bytes(lent)", "True"), "case 1 wrong (answer"),
    ("replays", "a stored answer is wrong", LINES, put(b"0\n", b"1\n"), "out/vektoren: as it is stored: prints"),
    ("replays", "a status that is not 0", VEKTOREN, added("sys.exit(1)\n"), "out/vektoren: as it is stored: prints"),
    ("replays", "no end", COUNTED, added("while True:\n    pass\n"), "as it is stored: prints otherwise, or does"),
    ("replays", "half a case", FILES, cut(1), "crates/vektoren_fragen/stdin: case 4 cannot be read"),
    ("replays", "no third lists", LISTS, only(CASES["vektoren_portfolio"][0]), "no case has counts"),
    ("runs", "an edit that was not refused", CI, put("edits: 1", "edits: 0"), "ci: 0 must-fail edits refused, and the"),
    ("runs", "a test that did not run", f"{LEFT}/host", put("2 passed", "1 passed"), "ran 3 tests, and the files"),
    ("runs", "a program that did not run", f"{LEFT}/host", only(RESULT), "ran 2 tests, and the files have 4"),
    ("runs", "a test more", f"{LEFT}/findings", added(RESULT), "findings: cargo ran 4 tests, and the files have 2"),
    ("runs", "a test that is ignored", f"{LEFT}/host", put("0 ignored", "1 ignored"), "host: tests left out: test"),
    ("runs", "one that is filtered out", f"{LEFT}/host", put("0 filtered", "1 filtered"), "host: tests left out: test"),
    ("runs", "a row fewer", COMPARED, put("mf_zwei", "no mf_zwei"), "rows mf_zwei: fell from 1 to 0"),
    ("runs", "a row more", COMPARED, put("mf_zwei", "mf_eins"), "rows mf_eins: rose from 2 to 3"),
    ("runs", "a row that is not counted", LIST, put("mf_eins 2", "mf_eins 3"), "rows mf_eins: fell from 3 to 2"),
    ("runs", "a part that printed nothing", COMPARED, gone, COMPARED),
    ("jahresindex", "an entry one too high", TABLE, put(" 217118,", " 217119,"), "tabelle.rt: 217119 Werktage before"),
    ("jahresindex", "one in the proofs", ENTRIES, put(" 217118 ", " 217119 "), "Entries.antt: 217119"),
    ("jahresindex", "an entry too few", TABLE, without("    222031,\n"), "904 entries"),
    ("jahresindex", "no table", TABLE, gone, TABLE),
]

# What the length of lines passes.
LONG = [
    ("crates/andere/specs/Lang.antt", "ä" * 120 + "\n"),
    ("docs/lang.md", "| " + "x" * 200 + " |\n\n```\n" + "x" * 200 + "\n```\n"),
    ("host/src/lang.rs", "//! | " + "x" * 200 + " |\n"),
    ("crates/andere/data/lang.md", "x" * 200 + "\n"),
]


def lay(folder, repository):
    """Writes the files of a repository; a name that ends with / is a folder's."""
    for name, content in repository.items():
        path = Path(folder, name)
        path.parent.mkdir(parents=True, exist_ok=True)
        if name.endswith("/"):
            path.mkdir()
            continue
        path.write_bytes(content if isinstance(content, bytes) else content.encode())
        path.chmod(0o755)


def faults(check, repository):
    with tempfile.TemporaryDirectory() as folder:
        lay(folder, repository)
        return sources.run(check, folder)[1]


def changed(file, change):
    """The small repository with one file changed; none if that changes nothing."""
    content = change(GOOD.get(file, ""))
    repository = {name: text for name, text in GOOD.items() if name != file}
    return None if content == GOOD.get(file) else repository | ({} if content is None else {file: content})


def renewed(repository):
    """What changes by a new list, and what faults it has, but those of other files."""
    with tempfile.TemporaryDirectory() as folder:
        lay(folder, repository)
        text, changes, _ = counts.renewed(folder)
        lay(folder, {LIST: text})
        return [*changes, *sources.run(counts.numbers, folder)[1]]


def refused(place):
    check, what, file, change, told = BAD[place]
    repository = changed(file, change)
    found = faults(CHECKS[check], repository) if repository else ["nothing was changed"]
    return f"{check}: {what}", any(told in fault for fault in found), found


def tried():
    for check in CHECKS:
        found = faults(CHECKS[check], GOOD | dict(LONG))
        yield f"{check}: without a fault", not found, found
    # Most of the time is waiting for programs that read nothing more. Threads would hand the files that they write to
    # each other's programs.
    with ProcessPoolExecutor() as pool:
        yield from pool.map(refused, range(len(BAD)))
    for what, repository, changes in [
        ("of what is listed", GOOD, 0),
        ("where the list is behind", changed(ORACLE, added("#[test]\n")), 1),
        ("where a run was otherwise", changed(COMPARED, put("mf_zwei", "mf_eins")), 2),
        ("where no run is left", changed(COMPARED, gone), 0),
        ("where there is none", changed(LIST, gone), 15),
    ]:
        found = renewed(repository)
        yield f"numbers: a new list {what}", len(found) == changes, found
    yield from weakened.tried(lambda repository: faults(theorems.theorems, repository))
    untried = set(CHECKS) - {check for check, *_ in BAD}
    yield "every check has a fault to refuse", not untried, sorted(untried)


def main():
    passed = failed = 0
    for name, right, found in tried():
        passed, failed = passed + right, failed + (not right)
        if not right:
            print(f"checks: FAILED: {name}; found {found}")
    print(f"checks: selftest: {passed} passed, {failed} failed")
    return 1 if failed else 0


if __name__ == "__main__":
    sys.exit(main())
