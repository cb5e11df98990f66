"""A small repository with a theorem, and the ways in which that can get weaker, for selftest.py."""

import tempfile
from pathlib import Path

import theorems

LAWS, WORDS = "crates/tage/specs/Laws.antt", "crates/tage/specs/Tage.antt"
FUNCTIONS, CODE = "crates/tage/src/theorems.rt", "crates/tage/src/lib.rt"
CASES, CALLED = "crates/faelle/src/main.rt", "crates/faelle/src/theorems.rt"
LIST, MAP, README = theorems.LIST, theorems.MAP, "README.md"
CALLS = "crates/mako_fristen/src/lib.rt"
PROVED = {
    LAWS: """-- Laws of steps.
--   StepIsLater   a step leads to a later day, or leaves
use Rattle.std.specs.Prelude.{ℕ, ◌<◌, ◌≤◌, ◌≡◌, ◌↔◌, Some}
use Rattle.tage.specs.Tage.{last, step, Inside}

abbrev pub StepIsLater : Type 0
StepIsLater = (from to : ℕ) → from ≤ last → step from ≡ Some to → from < to

-- both ways
abbrev pub StepIsInside : Type 0
StepIsInside =
    (from : ℕ) →
    Inside (step from) ↔ (from < last)
""",
    WORDS: """use Rattle.std.specs.Prelude.{ℕ, suc, Option, Some, None}

abbrev pub last : ℕ
last = 7

unfoldable pub step : ℕ → Option ℕ
step d = Some (suc d)

-- where it leads
pub record Inside (s : Option ℕ) : Type 0 where
  pub day : ℕ
  pub kept : day ≤ last

abbrev pub other : ℕ
other = 8
""",
    FUNCTIONS: """// Theorems.
ghost use Rattle.tage.specs.Laws.{StepIsLater, StepIsInside};

/// Theorem: steps.
pub fn steps()
    ensures later { StepIsLater }
    ensures inside { StepIsInside }
{}

/// Theorem: steps again.
pub fn again()
    ensures later { StepIsLater }
{}
""",
    CODE: """pub mod theorems;

ghost use Rattle.tage.specs.Tage.step;

/// A step.
pub fn step(d: u32) -> Option<u32>
    requires { d < 7 }
    ensures { result ≡ step d }
{
    Some(d + 1)
}
""",
    CALLS: """ghost use Rattle.tage.specs.Tage.{step as stepped};

/// A call.
pub fn mf_step(d: u8, answer: &mut [u8]) -> u8
    ensures { (result, answer.new) ≡ stepped d }
{
    0
}
""",
    CASES: """mod theorems;

fn main() {
    theorems::call_all();
}
""",
    CALLED: """/// Calls each.
pub fn call_all() {
    tage::theorems::steps();
    own();
}

fn own() {
    tage::theorems::again();
}
""",
    MAP: "| a step | `tage::theorems::steps.later`, `tage::theorems::steps.inside`, `tage::theorems::again` |\n",
    README: "Proved: `tage::step`, `tage::theorems`, `std::num`.\n",
}


def with_list(repository):
    """The repository with a list of what it has."""
    with tempfile.TemporaryDirectory() as folder:
        for name, content in repository.items():
            path = Path(folder, name)
            path.parent.mkdir(parents=True, exist_ok=True)
            path.write_text(content, encoding="utf-8")
        return repository | {LIST: theorems.written(theorems.listed_now(folder)[0])}


def put(file, old, new):
    return {file: lambda text: text.replace(old, new, 1)}


USE = "ghost use Rattle.tage.specs.Laws.{StepIsLater, StepIsInside};\n"
TAGE = "use Rattle.tage.specs.Tage.{last, step, Inside}\n"
AGAIN = """
/// Theorem: steps again.
pub fn again()
    ensures later { StepIsLater }
{}
"""
# What is wrong, the changes by file, and a part of what the fault must say.
WEAKENED = [
    ("a direction dropped", put(LAWS, "↔ (from", "→ (from"), f"{LAWS} StepIsInside was"),
    ("a premise added", put(LAWS, "from ≤ last →", "from ≤ last → from ≡ 0 →"), f"{LAWS} StepIsLater was"),
    ("another statement by its name", put(LAWS, "StepIsLater =", "StepIsLater = ℕ → ℕ\nold ="), "StepIsLater was"),
    ("a word of a statement", put(WORDS, "last = 7", "last = 0"), f"{WORDS} last was"),
    ("a field of a record", put(WORDS, "  pub kept : day ≤ last\n", ""), f"{WORDS} Inside was"),
    ("a definition that a call promises", put(WORDS, "Some (suc d)", "Some d"), f"{WORDS} step was"),
    ("a clause that is gone", put(FUNCTIONS, "    ensures inside { StepIsInside }\n", ""), "ensures inside is gone"),
    ("a clause that says another", put(FUNCTIONS, "{ StepIsInside }", "{ StepIsLater }"), "steps ensures inside was"),
    ("a requires", put(FUNCTIONS, "    ensures in", "    requires { ⊥ }\n    ensures in"), "steps requires is not"),
    ("a function, its call and its row", {
        **put(FUNCTIONS, AGAIN, ""),
        **put(CALLED, "    tage::theorems::again();\n", ""),
        **put(MAP, ", `tage::theorems::again`", ""),
    }, "tage::theorems::again ensures later is gone"),
    ("a statement from elsewhere", put(FUNCTIONS, "specs.Laws.", "proofs.Laws."), "is no definition of specs/"),
    ("a statement that is not there", put(FUNCTIONS, "specs.Laws.", "specs.Tage."), "StepIsLater is not defined in"),
    ("a promise of the code", put(CODE, "result ≡ step d", "result ≡ result"), "tage::step ensures was"),
    ("a promise of a call", put(CALLS, "≡ stepped d", "≡ stepped 0"), "mf_step ensures was"),
    ("a theorem that is not called", put(CALLED, "    tage::theorems::again();\n", ""), "faelle does not call"),
    ("one whose call is a comment", put(CALLED, "    tage::theorems::a", "    // tage::theorems::a"), "not call"),
    ("one whose caller is not called", put(CASES, "    theorems::call_all();\n", ""), "faelle does not call"),
    ("calls in a file of no module", put(CASES, "mod theorems;\n", ""), "no file of its crate names it"),
    ("theorems in a file of no module", put(CODE, "pub mod theorems;\n", ""), "no file of its crate names it"),
    ("a theorem that is private", put(FUNCTIONS, AGAIN, AGAIN.replace("pub fn", "fn")), "again was theorem"),
    ("one that no call meets", put(FUNCTIONS, AGAIN, AGAIN.replace("()", "(_n: Never)")), "again was theorem"),
    ("one of a type that none is", put(FUNCTIONS, AGAIN, AGAIN.replace("()", "<T: Never>()")), "again was theorem"),
    ("one that does not end", put(FUNCTIONS, AGAIN, AGAIN.replace("{}", "{ loop {} }")), "again was theorem"),
    (
        "two of one name",
        put(CODE, "pub mod theorems;", "pub mod theorems { " + AGAIN + "}\npub mod theorems;"),
        "2 functions",
    ),
    ("a statement before it in a text", put(FUNCTIONS, AGAIN, 'const A: &str = "' + AGAIN + '";\n'), "again is gone"),
    (
        "the statement of a test alone",
        put(FUNCTIONS, USE, USE.replace("Laws", "Tage") + "mod tests { " + USE + " }\n"),
        "not defined",
    ),
    ("an import in a comment", put(LAWS, TAGE, TAGE.replace("Tage", "Weak") + "-- " + TAGE), "is not defined in"),
    (
        "a name of the library",
        put(LAWS, "use Rattle.std.specs.Prelude.", "use Rattle.std.specs.Int."),
        "StepIsLater was",
    ),
    ("a comment in braces", put(LAWS, "StepIsLater =", "StepIsLater = ℕ\n{- = -}\n  "), "a comment in braces"),
    ("a whole module", put(LAWS, TAGE, TAGE + "use Rattle.tage.specs.Weak.*\n"), "an import of a whole module"),
    (
        "a name inside of a module",
        put(LAWS, "-- both", "module _ where\n  last : ℕ\n  last = 0\n-- both"),
        "cannot be read",
    ),
    ("an operator of our own", put(WORDS, "abbrev pub other : ℕ\nother", "abbrev pub ◌↔◌ : ℕ\n◌↔◌"), "is an operator"),
    (
        "two definitions of one name",
        put(WORDS, "abbrev pub other : ℕ\nother", "abbrev pub last : ℕ\nlast"),
        "defined twice",
    ),
    ("one without a row", put(MAP, ", `tage::theorems::again`", ""), "again stands in no row"),
    ("a row of a clause that is gone", put(MAP, "steps.inside", "steps.outside"), "steps has no clause outside"),
    ("a page's function that is gone", put(README, "`tage::step`", "`tage::stride`"), "no function tage::stride"),
    ("a clause without a name", put(FUNCTIONS, AGAIN, AGAIN.replace(" later ", " ")), "a clause without a name"),
    ("no list", {LIST: lambda text: None}, LIST),
]


def tried(faults):
    """Each way with its faults, of which `faults` tells for a repository."""
    good = with_list(PROVED)
    found = faults(good)
    yield "theorems: without a fault", not found, found
    for what, changes, told in WEAKENED:
        repository = dict(good)
        for file, change in changes.items():
            text = change(good[file])
            if text is None:
                del repository[file]
            else:
                repository[file] = text
        found = faults(repository) if repository != good else ["nothing was changed"]
        yield f"theorems: {what}", any(told in fault for fault in found), found
