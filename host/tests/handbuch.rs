//! What the program says of itself: its man page and its completion for bash.

use mako_fristen_host::{Call, Eeg};
use std::fs;
use std::io::Write;
use std::path::{Path, PathBuf};
use std::process::{Command, Stdio};

const PROGRAM: &str = env!("CARGO_BIN_EXE_fristen");

fn page() -> String {
    let output = Command::new(PROGRAM).arg("--manpage").output().expect("it runs");
    assert_eq!((output.status.code(), output.stderr), (Some(0), vec![]));
    String::from_utf8(output.stdout).expect("UTF-8")
}

/// What groff makes of a line of its language, where all characters mean themselves.
fn unescaped(line: &str) -> String {
    let line = line.strip_prefix("\\&").unwrap_or(line);
    let named = [("\\-", "-"), ("\\(aq", "'"), ("\\(dq", "\""), ("\\(ti", "~"), ("\\e", "\\")];
    let line = named.iter().fold(line.to_owned(), |line, (name, it)| line.replace(name, it));
    let mut parts = line.split("\\[u");
    let mut text = parts.next().unwrap_or_default().to_owned();
    for part in parts {
        let (number, rest) = part.split_once(']').expect("a character");
        let number = u32::from_str_radix(number, 16).expect("a number");
        text.push(char::from_u32(number).expect("a character"));
        text.push_str(rest);
    }
    text
}

/// The blocks whose lines stay as they are.
fn blocks(page: &str) -> Vec<String> {
    let blocks = page.split("\n.EX\n").skip(1);
    let blocks = blocks.map(|block| block.split_once(".EE\n").expect("an end").0);
    blocks.map(|block| block.lines().map(|line| unescaped(line) + "\n").collect()).collect()
}

fn folder(name: &str) -> PathBuf {
    let folder = Path::new(env!("CARGO_TARGET_TMPDIR")).join(name);
    let _ = fs::remove_dir_all(&folder);
    fs::create_dir_all(&folder).expect("it is made");
    folder
}

fn printed(call: &str, folder: &Path) -> String {
    let mut words = call.split_whitespace();
    assert_eq!(words.next(), Some("fristen"), "{call}");
    let output = Command::new(PROGRAM).args(words).current_dir(folder).output().expect("it runs");
    assert_eq!((output.status.code(), output.stderr), (Some(0), vec![]), "{call}");
    String::from_utf8(output.stdout).expect("UTF-8")
}

#[test]
fn the_examples_of_the_man_page_print_what_it_says() {
    let (page, folder) = (page(), folder("handbuch"));
    let (mut examples, mut calls) = (0, 0);
    for block in blocks(&page) {
        for part in format!("\n{block}").split("\n$ ").skip(1) {
            let (call, shown) = part.split_once('\n').unwrap_or((part, ""));
            let shown = format!("{}\n", shown.trim_end());
            if let Some(file) = call.strip_prefix("cat ") {
                fs::write(folder.join(file), shown).expect("it is written");
                continue;
            }
            let printed = printed(call, &folder);
            assert_eq!(format!("{}\n", printed.trim_end()), shown, "{call}");
            examples += 1;
        }
        if block.starts_with("fristen ") {
            assert!(!printed(block.trim_end(), &folder).is_empty());
            calls += 1;
        }
    }
    // One of each subcommand and of each shape, at least.
    assert!(examples >= Call::ALL.len() + 4, "{examples}");
    assert_eq!(calls, 8 + 4);
}

/// Where there is a groff, which then has nothing to warn of.
#[test]
fn the_man_page_is_what_groff_reads() {
    let mut groff = Command::new("groff");
    // The last four: without colours and without characters that are printed over each other.
    groff.args(["-man", "-Tutf8", "-ww", "-P-c", "-P-b", "-P-o", "-P-u"]);
    groff.stdin(Stdio::piped()).stdout(Stdio::piped());
    let Ok(mut child) = groff.stderr(Stdio::piped()).spawn() else {
        return;
    };
    let page = page();
    let mut input = child.stdin.take().expect("an input");
    let writer = std::thread::spawn(move || input.write_all(page.as_bytes()));
    let output = child.wait_with_output().expect("it ends");
    assert!(writer.join().is_ok_and(|written| written.is_ok()));
    assert_eq!(String::from_utf8_lossy(&output.stderr), "");
    assert!(output.status.success());
    let text = String::from_utf8(output.stdout).expect("UTF-8");
    for line in ["ÜBERSICHT", "$ fristen tag 2026-11-18", "fristen hilfe [BEFEHL]", "STATUS"] {
        assert!(text.lines().any(|it| it.trim() == line), "{line}");
    }
}

/// What bash would offer for the last word.
fn offered(words: &[&str], folder: &Path) -> Vec<String> {
    let script = r#"
source <("$0" --bash-completion) && complete -p fristen >/dev/null || exit
COMP_WORDS=("$@") COMP_CWORD=$(($# - 1))
_fristen
printf '%s\n' "${COMPREPLY[@]}""#;
    let mut bash = Command::new("bash");
    let bash = bash.args(["--norc", "-c", script, PROGRAM]).args(words).current_dir(folder);
    let output = bash.output().expect("it runs");
    assert_eq!(String::from_utf8_lossy(&output.stderr), "", "{words:?}");
    assert!(output.status.success(), "{words:?}");
    let text = String::from_utf8(output.stdout).expect("UTF-8");
    text.lines().filter(|line| !line.is_empty()).map(str::to_owned).collect()
}

#[test]
fn words_are_completed() {
    let rows: [(&str, &str); 33] = [
        ("kal", "kalender"),
        ("CONTRL-D", "contrl-due-at contrl-due-at-change"),
        ("xyz", ""),
        ("help sp", "span spanne"),
        ("help span ", ""),
        ("check latestw", "LatestWerktageBefore LatestWerktageAfter"),
        ("Prüfen Korr", "Korridor"),
        ("mf_vorlauf_check zeit", "Zeitfenster"),
        ("span Monate", "MonateVorher MonateUndWerktageVorher"),
        ("bis-wann TagVor", "TagVorDemLetztenWerktagVor TagVorLetztemWerktag"),
        ("check Korridor ", ""),
        ("frist Werk", "WerktagAt WerktagUm"),
        ("contrl ", "Regelfall StromUtilmdOderOrders GasAlocat"),
        ("--json contrl g", "GasAlocat"),
        ("contrl --stichtag 2026-06-06 g", "GasAlocat"),
        ("contrl --stichtag ", ""),
        ("contrl-mit-stichtag R", "Regelfall"),
        ("tagesbeginn ", ""),
        ("tagesbeginn 2026-03-29 ", "Strom Gas"),
        ("check-at Korridor 5 2026-01-08 10:00 2026-01-09T00:00 g", "Gas"),
        ("abmeldung ZQ7 --eeg ", "nein ja unbekannt"),
        ("abmeldung ZQ7 --eeg =", "nein ja unbekannt"),
        ("abmeldung ZQ7 --eeg = u", "unbekannt"),
        ("abmeldung-fuer --e", "--eeg"),
        ("tag --e", ""),
        ("contrl --st", "--stichtag"),
        ("tag --st", "--status"),
        ("kalender --by", ""),
        ("tag --st", "--status"),
        ("fragen --r", "--roh"),
        ("--m", "--manpage"),
        ("tag --m", ""),
        ("tag ", ""),
    ];
    let folder = folder("vervollstaendigung");
    for (line, expected) in rows {
        let words: Vec<&str> = ["fristen"].into_iter().chain(line.split(' ')).collect();
        assert_eq!(offered(&words, &folder).join(" "), expected, "{line}");
    }
}

#[test]
fn every_call_and_option_is_offered() {
    let folder = folder("vervollstaendigung-alles");
    let commands = offered(&["fristen", ""], &folder);
    for call in Call::ALL {
        let name = call.name()[3..].replace('_', "-");
        assert!(commands.contains(&name), "{name}");
    }
    for name in ["kalender", "bis-wann", "fragen", "portfolio", "help", "pruefen"] {
        assert!(commands.iter().any(|it| it == name), "{name}");
    }
    let given = offered(&["fristen", "abmeldung", "ZQ7", "--eeg", ""], &folder);
    assert_eq!(given.len(), Eeg::ALL.len());
}

#[test]
fn files_are_completed() {
    let folder = folder("vervollstaendigung-dateien");
    for file in ["eins zwei.txt", "einsam.csv", "zwei.txt"] {
        fs::write(folder.join(file), "").expect("it is written");
    }
    for command in ["fragen", "portfolio"] {
        let mut files = offered(&["fristen", command, "ein"], &folder);
        files.sort();
        assert_eq!(files, ["eins zwei.txt", "einsam.csv"], "{command}");
        assert_eq!(offered(&["fristen", command, "zwei.txt", ""], &folder), [""; 0], "{command}");
    }
    assert_eq!(offered(&["fristen", "tag", "ein"], &folder), [""; 0]);
}
