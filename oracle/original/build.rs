//! Reads the original's files and writes them to OUT_DIR, changed only where they cannot compile
//! here, and beside them the lists that stand inside of its holiday test. A change that does not find
//! its place exactly once stops the build: then the original is another than the one these changes
//! were made for.

use std::path::{Path, PathBuf};
use std::{env, fs};

const FOLDER: &str = "MAKO_FRISTEN_SRC";
const FILES: [&str; 6] =
    ["lib.rs", "abmeldung.rs", "antwort.rs", "meldung.rs", "tagesbeginn.rs", "vorlauf.rs"];

fn main() {
    println!("cargo:rerun-if-env-changed={FOLDER}");
    println!("cargo:rerun-if-changed=build.rs");
    let source = source_folder();
    let out = PathBuf::from(env::var_os("OUT_DIR").expect("cargo sets OUT_DIR"));
    for file in FILES {
        let path = source.join(file);
        println!("cargo:rerun-if-changed={}", path.display());
        let text = fs::read_to_string(&path).unwrap_or_else(|e| {
            panic!("{}: {e}; set {FOLDER} to the original's folder", path.display())
        });
        fs::write(out.join(file), adapted(file, &text)).expect("OUT_DIR can be written");
        if file == "lib.rs" {
            fs::write(out.join("lists.rs"), lists(&text)).expect("OUT_DIR can be written");
        }
    }
}

fn source_folder() -> PathBuf {
    let root = match env::var_os(FOLDER) {
        Some(root) if !root.is_empty() => PathBuf::from(root),
        _ => Path::new(env!("CARGO_MANIFEST_DIR")).join("../../../shared/docs/src"),
    };
    root.join("crates/mako-fristen/src")
}

fn adapted(file: &str, text: &str) -> String {
    match file {
        "lib.rs" => {
            let text = without_head(text);
            let text = replaced(text, "pub mod e_rechnung;\n", "");
            replaced(&text, "pub mod empfaengerland;\n", "")
        }
        // `Month::length` is newer than Debian's `time`.
        "antwort.rs" => replaced(
            text,
            "zeitspanne_bis.month().length(zeitspanne_bis.year())",
            "time::util::days_in_month(zeitspanne_bis.month(), zeitspanne_bis.year())",
        ),
        _ => text.to_owned(),
    }
}

/// Without the inner doc lines and the three inner attributes, all lints, which an included file
/// may not have. One further down would not compile.
fn without_head(text: &str) -> &str {
    let items = text.find("\npub mod ").expect("the original changed: lib.rs has no `pub mod`");
    let (head, items) = text.split_at(items);
    let attributes = head.lines().filter(|line| line.starts_with("#![")).count();
    assert_eq!(attributes, 3, "the original changed: lib.rs has other inner attributes");
    items
}

fn replaced(text: &str, old: &str, new: &str) -> String {
    assert_eq!(text.matches(old).count(), 1, "the original changed: `{old}` stands there not once");
    text.replacen(old, new, 1)
}

/// The fixed days and the offsets from Easter, for a look at each entry. The holiday test has them as
/// a pattern and a slice of its own, and tells only whether one of all fits.
fn lists(text: &str) -> String {
    let test = between(text, "fn is_bdew_mako_holiday(date: Date) -> bool {", "\n}\n");
    let fixed = between(test, "if matches!(", "\n    ) {");
    let offsets = between(test, "let offsets: &[i64] = &[", "];");
    format!(
        "pub fn is_fixed(m: u8, d: u8) -> bool {{\n    matches!({fixed}\n    )\n}}\n\n\
         pub const OFFSETS: &[i64] = &[{offsets}];\n"
    )
}

/// What stands from `start`, which is there once, up to the next `end`.
fn between<'a>(text: &'a str, start: &str, end: &str) -> &'a str {
    let parts: Vec<&str> = text.split(start).collect();
    let [_, rest] = parts[..] else {
        panic!("the original changed: `{start}` stands there not once");
    };
    let found = rest.split_once(end);
    found.unwrap_or_else(|| panic!("the original changed: no `{end}` after `{start}`")).0
}
