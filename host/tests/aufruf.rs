//! `./fristen` and host/build.sh, which it reads where something has changed: in a small repository
//! with tools that only note that they were called. The program that they build is bash, and where it
//! is installed a script.

use std::fs::{self, File};
use std::io::{BufRead, BufReader};
use std::os::unix::fs::{symlink, PermissionsExt};
use std::os::unix::process::ExitStatusExt;
use std::path::{Path, PathBuf};
use std::process::{Child, Command, Output, Stdio};
use std::thread::sleep;
use std::time::{Duration, Instant};

const RT: &str = r#"#!/bin/bash
echo "rt $*" >>"$TREE/calls"
for crate in unten oben mako_fristen_c; do echo "rt: chose --jobs 2 for $crate"; done
echo "said by rt"
[ ! -f "$TREE/hang-rt" ] || echo $$ >"$TREE/hanging"
while [ -f "$TREE/hang-rt" ]; do sleep 0.1; done
[ ! -f "$TREE/fail-rt" ] || exit 3
mkdir -p out && echo archive >out/libmako_fristen_c.a
"#;

const CARGO: &str = r#"#!/bin/bash
echo "cargo ${MAKO_FRISTEN_LIB--}" >>"$TREE/calls"
echo "said by cargo"
[ ! -f "$TREE/hang-cargo" ] || echo $$ >"$TREE/hanging"
while [ -f "$TREE/hang-cargo" ]; do sleep 0.1; done
[ ! -f "$TREE/fail-cargo" ] || exit 3
[ -f "${MAKO_FRISTEN_LIB-../target/staticlib}/libmako_fristen.a" ] || exit 1
while [ "$1" != --target-dir ]; do shift; done
mkdir -p "$2/release" && ln -sf /bin/bash "$2/release/fristen"
"#;

const CRATES: &str =
    "# Four.\nunten:\noben: unten\nmako_fristen_c staticlib: oben # and unten\nfremd: unten\n";
const SOURCES: [&str; 14] = [
    "crates/unten/src/lib.rt",
    "crates/unten/specs/Eins.antt",
    "crates/unten/src/tief/tiefer/zwei.rt",
    "crates/oben/src/lib.rt",
    "crates/oben/src/drei.rt",
    "crates/oben/proofs/tief/Vier.antt",
    "crates/mako_fristen_c/src/lib.rt",
    "crates/fremd/src/lib.rt",
    "host/src/lib.rs",
    "host/src/bin/fristen/main.rs",
    "host/src/bin/fristen/tief/zahl.rs",
    "host/Cargo.toml",
    "host/Cargo.lock",
    "host/build.rs",
];
const FIRST: &str = "\
fristen: beweist und übersetzt die Bibliothek, einmalig, etwa zehn Minuten ...
fristen: beweist Teil 1 von 3: unten ...
fristen: beweist Teil 2 von 3: oben ...
fristen: beweist Teil 3 von 3: mako_fristen_c ...
fristen: übersetzt das Programm, einmalig, einige Sekunden ...
";
const BOTH: &str = "rt lib\ncargo -\n";
const PROGRAM_ALONE: &str = "cargo -\n";

/// A repository with nothing built.
struct Tree(PathBuf);

impl Tree {
    fn new(name: &str) -> Tree {
        let folder = Path::new(env!("CARGO_TARGET_TMPDIR")).join("aufruf").join(name);
        let _ = fs::remove_dir_all(&folder);
        fs::create_dir_all(&folder).expect("it is made");
        let tree = Tree(fs::canonicalize(folder).expect("it is there"));
        for source in SOURCES {
            tree.write(source, "one");
        }
        tree.write("crates.txt", CRATES);
        tree.tool("bin/rt", RT);
        tree.tool("bin/cargo", CARGO);
        let ours = Path::new(env!("CARGO_MANIFEST_DIR")).join("..");
        for file in ["fristen", "install", "host/build.sh"] {
            tree.executable(&ours.join(file), file);
        }
        tree
    }

    /// With everything built.
    fn built(name: &str) -> Tree {
        let tree = Tree::new(name);
        assert_eq!(tree.built_by(&mut tree.call()), BOTH);
        tree
    }

    fn at(&self, file: &str) -> PathBuf {
        self.0.join(file)
    }

    fn write(&self, file: &str, text: &str) {
        let file = self.at(file);
        fs::create_dir_all(file.parent().expect("a folder")).expect("it is made");
        fs::write(file, text).expect("it is written");
    }

    fn tool(&self, file: &str, text: &str) {
        self.write("tool", text);
        self.executable(&self.at("tool"), file);
    }

    /// By a process of its own: none that another test starts meanwhile has the file open, which then
    /// could not be run.
    fn executable(&self, from: &Path, file: &str) {
        let mut install = Command::new("install");
        let status = install.args(["-D", "-m", "755"]).arg(from).arg(self.at(file)).status();
        assert!(status.expect("it runs").success(), "{file}");
    }

    fn command(&self, program: impl AsRef<std::ffi::OsStr>) -> Command {
        let mut command = Command::new(program);
        command.env("TREE", &self.0).env_remove("MAKO_FRISTEN_LIB").current_dir(&self.0);
        command.env("PATH", format!("{}:/usr/bin:/bin", self.at("bin").display()));
        command.stdin(Stdio::null());
        command
    }

    fn call(&self) -> Command {
        self.named("./fristen")
    }

    /// Prints the name by which the program was called.
    fn named(&self, name: &str) -> Command {
        let mut command = self.command(name);
        command.args(["-c", "echo $0"]);
        command
    }

    /// The calls of the tools by a call that ends well.
    fn built_by(&self, call: &mut Command) -> String {
        let _ = fs::remove_file(self.at("calls"));
        let output = call.output().expect("it runs");
        let told = String::from_utf8_lossy(&output.stderr).into_owned();
        assert_eq!(output.status.code(), Some(0), "{}: {told}", self.0.display());
        self.calls()
    }

    fn calls(&self) -> String {
        fs::read_to_string(self.at("calls")).unwrap_or_default()
    }

    /// Files of a build that has not come to its end.
    fn left_over(&self) -> Vec<String> {
        let folders = ["target", "target/host", "target/staticlib"].map(|it| self.at(it));
        let files = folders.iter().filter_map(|it| fs::read_dir(it).ok()).flatten();
        let names = files.map(|it| it.expect("a file").file_name().to_string_lossy().into_owned());
        let ends = [".new", ".log", ".started"];
        names.filter(|it| ends.iter().any(|end| it.ends_with(end))).collect()
    }
}

fn text(bytes: &[u8]) -> &str {
    std::str::from_utf8(bytes).expect("UTF-8")
}

/// Longer than the steps of a file's time.
fn later() {
    sleep(Duration::from_millis(25));
}

fn until(what: &str, is_so: impl Fn() -> bool) {
    let begin = Instant::now();
    while !is_so() {
        assert!(begin.elapsed() < Duration::from_secs(20), "{what}");
        sleep(Duration::from_millis(10));
    }
}

#[test]
fn a_first_build_says_where_it_is() {
    let tree = Tree::new("erster");
    let output = tree.call().output().expect("it runs");
    assert_eq!(text(&output.stderr), FIRST);
    assert_eq!(text(&output.stdout), "./fristen\n");
    assert_eq!((output.status.code(), tree.calls().as_str()), (Some(0), BOTH));
    assert_eq!(tree.left_over(), [""; 0]);
}

/// No tool and no other program can be found.
#[test]
fn a_later_call_starts_no_process() {
    let tree = Tree::built("spaeter");
    let output = tree.call().env("PATH", "/nowhere").output().expect("it runs");
    assert_eq!((text(&output.stdout), text(&output.stderr)), ("./fristen\n", ""));
    assert_eq!(output.status.code(), Some(0));
}

/// Specs and proofs change no code.
#[test]
fn an_edited_source_is_built() {
    let tree = Tree::built("bearbeitet");
    for source in SOURCES.into_iter().chain(["crates.txt"]) {
        later();
        tree.write(source, CRATES);
        let expected = match source {
            "crates/fremd/src/lib.rt" => "",
            _ if source.ends_with(".antt") => "",
            _ if source.starts_with("host") => PROGRAM_ALONE,
            _ => BOTH,
        };
        assert_eq!(tree.built_by(&mut tree.call()), expected, "{source}");
        assert_eq!(tree.built_by(&mut tree.call()), "", "{source} again");
    }
}

/// In a folder that was there, and in a new one.
#[test]
fn an_added_source_is_built() {
    let tree = Tree::built("dazu");
    for source in ["crates/oben/src/neu.rt", "crates/unten/src/neu/neu.rt"] {
        later();
        tree.write(source, "new");
        assert_eq!(tree.built_by(&mut tree.call()), BOTH, "{source}");
    }
    for source in ["crates/oben/proofs/Neu.antt", "crates/oben/specs/Neu.antt"] {
        later();
        tree.write(source, "new");
        assert_eq!(tree.built_by(&mut tree.call()), "", "{source}");
    }
    for source in ["host/src/neu.rs", "host/src/neu/neu.rs"] {
        later();
        tree.write(source, "new");
        assert_eq!(tree.built_by(&mut tree.call()), PROGRAM_ALONE, "{source}");
    }
    assert_eq!(tree.built_by(&mut tree.call()), "");
}

/// The file alone; a folder with it, as git does; and an older file in its place.
#[test]
fn a_removed_source_is_noticed() {
    let tree = Tree::new("fort");
    tree.write("alt.rt", "old");
    later();
    assert_eq!(tree.built_by(&mut tree.call()), BOTH);
    later();
    fs::remove_file(tree.at("crates/oben/src/drei.rt")).expect("it is removed");
    assert_eq!(tree.built_by(&mut tree.call()), BOTH);
    fs::remove_dir_all(tree.at("crates/unten/src/tief")).expect("it is removed");
    assert_eq!(tree.built_by(&mut tree.call()), BOTH);
    later();
    fs::rename(tree.at("alt.rt"), tree.at("crates/unten/src/lib.rt")).expect("it is moved");
    assert_eq!(tree.built_by(&mut tree.call()), BOTH);
    later();
    fs::remove_dir_all(tree.at("crates/mako_fristen_c/src")).expect("it is removed");
    assert_eq!(tree.built_by(&mut tree.call()), BOTH);
    later();
    fs::remove_dir_all(tree.at("host/src/bin/fristen/tief")).expect("it is removed");
    assert_eq!(tree.built_by(&mut tree.call()), PROGRAM_ALONE);
    assert_eq!(tree.built_by(&mut tree.call()), "");
}

/// Without them nothing can be built, which the tools then say.
#[test]
fn a_list_that_is_missing_is_noticed() {
    for (list, expected) in [("crates.txt", "rt lib\n"), ("host/build.rs", "cargo -\n")] {
        let tree = Tree::built(&format!("ohne-{}", list.replace('/', "-")));
        for tool in ["rt", "cargo"] {
            tree.write(&format!("fail-{tool}"), "");
        }
        later();
        fs::remove_file(tree.at(list)).expect("it is removed");
        fs::remove_file(tree.at("calls")).expect("it is removed");
        for calls in [expected.to_owned(), expected.repeat(2)] {
            let output = tree.call().output().expect("it runs");
            assert_eq!((output.status.code(), tree.calls()), (Some(69), calls), "{list}");
        }
    }
}

#[test]
fn what_was_built_and_is_missing() {
    let tree = Tree::built("fehlt");
    fs::remove_file(tree.at("target/host/release/fristen")).expect("it is removed");
    assert_eq!(tree.built_by(&mut tree.call()), PROGRAM_ALONE);
    fs::remove_file(tree.at("target/staticlib/libmako_fristen.a")).expect("it is removed");
    assert_eq!(tree.built_by(&mut tree.call()), BOTH);
    fs::remove_dir_all(tree.at("target")).expect("it is removed");
    assert_eq!(tree.built_by(&mut tree.call()), BOTH);
    // An archive that `./test` has put there.
    later();
    tree.write("target/staticlib/libmako_fristen.a", "another");
    assert_eq!(tree.built_by(&mut tree.call()), PROGRAM_ALONE);
}

#[test]
fn an_archive_that_was_built_elsewhere() {
    let tree = Tree::new("woanders");
    for folder in ["lib", "other"] {
        tree.write(&format!("{folder}/libmako_fristen.a"), "archive");
    }
    let root = &tree.0;
    symlink("lib", tree.at("link")).expect("it is a link");
    let built_with = |folder: &Path| tree.built_by(tree.call().env("MAKO_FRISTEN_LIB", folder));
    let expected = format!("cargo {}\n", root.join("lib").display());
    assert_eq!(built_with(&root.join("lib")), expected);
    assert_eq!(built_with(Path::new("lib")), "");
    assert_eq!(built_with(Path::new("link/")), "");
    later();
    tree.write("crates/unten/src/lib.rt", "two");
    assert_eq!(built_with(Path::new("lib")), "");
    tree.write("lib/libmako_fristen.a", "newer");
    assert_eq!(built_with(Path::new("lib")), expected);
    assert_eq!(built_with(Path::new("other")), format!("cargo {}\n", root.join("other").display()));
    assert_eq!(tree.built_by(&mut tree.call()), BOTH);
    let output = tree.call().env("MAKO_FRISTEN_LIB", "nowhere").output().expect("it runs");
    assert_eq!(output.status.code(), Some(69));
    assert!(text(&output.stderr).ends_with("\nfristen: das Programm ließ sich nicht bauen.\n"));
}

fn assert_fails(tree: &Tree, expected: &str) {
    let output = tree.call().output().expect("it runs");
    assert_eq!((output.status.code(), text(&output.stdout)), (Some(69), ""));
    assert_eq!(text(&output.stderr), expected);
    assert_eq!(tree.left_over(), [""; 0]);
}

#[test]
fn a_tool_that_fails_is_heard() {
    let tree = Tree::new("gescheitert");
    let told = FIRST.lines().collect::<Vec<_>>();
    let chosen =
        ["unten", "oben", "mako_fristen_c"].map(|it| format!("rt: chose --jobs 2 for {it}\n"));
    let (proving, compiling) = (told[..4].join("\n"), told[4]);
    tree.write("fail-rt", "");
    let said = format!("{proving}\n{}said by rt\n", chosen.concat());
    assert_fails(&tree, &format!("{said}fristen: die Bibliothek ließ sich nicht bauen.\n"));
    fs::remove_file(tree.at("fail-rt")).expect("it is removed");
    tree.write("fail-cargo", "");
    let said = format!("{proving}\n{compiling}\nsaid by cargo\n");
    assert_fails(&tree, &format!("{said}fristen: das Programm ließ sich nicht bauen.\n"));
    fs::remove_file(tree.at("bin/cargo")).expect("it is removed");
    let missing = "fristen: cargo fehlt; ohne das lässt sich das Programm nicht bauen.\n";
    assert_fails(&tree, missing);
    fs::remove_file(tree.at("fail-cargo")).expect("it is removed");
    tree.tool("bin/cargo", CARGO);
    assert_eq!(tree.built_by(&mut tree.call()), PROGRAM_ALONE);
}

/// The first minutes would be lost if the second tool were looked for behind them.
#[test]
fn both_tools_are_there_before_one_is_called() {
    for (tool, what) in [("rt", "die Bibliothek"), ("cargo", "das Programm")] {
        let tree = Tree::new(&format!("ohne-{tool}"));
        fs::remove_file(tree.at(&format!("bin/{tool}"))).expect("it is removed");
        let missing = format!("fristen: {tool} fehlt; ohne das lässt sich {what} nicht bauen.\n");
        assert_fails(&tree, &missing);
        assert_eq!(tree.calls(), "", "{tool}");
    }
    let tree = Tree::built("ohne-beide");
    for tool in ["rt", "cargo"] {
        fs::remove_file(tree.at(&format!("bin/{tool}"))).expect("it is removed");
    }
    later();
    tree.write("host/src/lib.rs", "two");
    assert_fails(&tree, "fristen: cargo fehlt; ohne das lässt sich das Programm nicht bauen.\n");
}

/// What a terminal shows, of this kind.
fn shown(tree: &Tree, kind: &str) -> String {
    let mut call = tree.command("script");
    call.args(["-qec", "./fristen -c :", "/dev/null"]).env("TERM", kind).env("SHELL", "/bin/sh");
    let output = call.output().expect("it runs");
    assert_eq!(output.status.code(), Some(0), "{kind}");
    text(&output.stdout).replace("\r\n", "\n")
}

#[test]
fn a_terminal_shows_one_crate_over_the_other() {
    let parts: Vec<_> = FIRST.lines().collect();
    let over = parts[1..4].iter().map(|part| format!("\r\u{1b}[K{part}"));
    let expected = format!("{}\n{}\r\u{1b}[K{}\n", parts[0], over.collect::<String>(), parts[4]);
    assert_eq!(shown(&Tree::new("bildschirm"), "xterm"), expected);
    assert_eq!(shown(&Tree::new("bildschirm-einfach"), "dumb"), FIRST);
}

fn is_there(pid: &str) -> bool {
    // A process that has ended stays until its parent has asked for its status.
    let told = fs::read_to_string(format!("/proc/{}/stat", pid.trim())).unwrap_or_default();
    told.rsplit_once(')').is_some_and(|(_, after)| !after.starts_with(" Z"))
}

/// A call whose tool hangs, and the tool's number.
fn hanging(tree: &Tree, tool: &str) -> (Child, String) {
    tree.write(&format!("hang-{tool}"), "");
    // Whoever runs the tests may ignore signals.
    let mut call = tree.command("env");
    let call = call
        .args(["--default-signal=HUP,INT,TERM", "./fristen", "-c", "exit 0"])
        .stderr(Stdio::piped());
    let child = call.stdout(Stdio::piped()).spawn().expect("it runs");
    until("the tool runs", || {
        fs::read_to_string(tree.at("hanging")).is_ok_and(|it| it.ends_with('\n'))
    });
    (child, fs::read_to_string(tree.at("hanging")).expect("a number"))
}

fn send(signal: &str, child: &Child) {
    let pid = child.id().to_string();
    let sent = Command::new("kill").args(["-s", signal, &pid]).status().expect("it runs");
    assert!(sent.success(), "{signal}");
}

/// The lock is free, or the next call would wait.
#[test]
fn an_interrupted_build_goes_on() {
    for (tool, rest) in [("rt", BOTH), ("cargo", PROGRAM_ALONE)] {
        for (signal, number) in [("HUP", 1), ("INT", 2), ("TERM", 15), ("KILL", 9)] {
            let tree = Tree::new(&format!("unterbrochen-{tool}-{signal}"));
            let (child, pid) = hanging(&tree, tool);
            send(signal, &child);
            let output: Output = child.wait_with_output().expect("it ends");
            assert_eq!(output.status.signal(), Some(number), "{tool} {signal}");
            assert_eq!(text(&output.stdout), "");
            let told = text(&output.stderr)
                .ends_with("\nfristen: abgebrochen; der nächste Aufruf baut weiter.\n");
            assert_eq!(told, signal != "KILL", "{}", text(&output.stderr));
            until("the tool has ended", || !is_there(&pid));
            let left: &[&str] = if told { &[] } else { &["fristen.started"] };
            assert_eq!(tree.left_over(), left, "{tool} {signal}");
            fs::remove_file(tree.at(&format!("hang-{tool}"))).expect("it is removed");
            assert_eq!(tree.built_by(&mut tree.call()), rest, "{tool} {signal}");
            assert_eq!(tree.built_by(&mut tree.call()), "", "{tool} {signal}");
            assert_eq!(tree.left_over(), [""; 0], "{tool} {signal}");
        }
    }
}

/// The old program is not taken for the new one.
#[test]
fn an_interrupted_build_over_an_older_one() {
    let tree = Tree::built("unterbrochen-danach");
    later();
    tree.write("crates/unten/src/lib.rt", "two");
    let (child, _) = hanging(&tree, "cargo");
    send("INT", &child);
    assert_eq!(child.wait_with_output().expect("it ends").status.signal(), Some(2));
    fs::remove_file(tree.at("hang-cargo")).expect("it is removed");
    assert_eq!(tree.built_by(&mut tree.call()), PROGRAM_ALONE);
    assert_eq!(tree.built_by(&mut tree.call()), "");
}

#[test]
fn what_changes_during_a_build_is_built_next() {
    let (unten, host) = ("crates/unten/src/lib.rt", "host/src/lib.rs");
    let rows = [("rt", unten, BOTH), ("cargo", unten, BOTH), ("cargo", host, PROGRAM_ALONE)];
    for (place, (tool, source, expected)) in rows.into_iter().enumerate() {
        let tree = Tree::new(&format!("waehrend-{place}"));
        let (child, _) = hanging(&tree, tool);
        later();
        tree.write(source, "two");
        later();
        fs::remove_file(tree.at(&format!("hang-{tool}"))).expect("it is removed");
        assert_eq!(child.wait_with_output().expect("it ends").status.code(), Some(0));
        assert_eq!(tree.built_by(&mut tree.call()), expected, "{tool}, {source}");
        assert_eq!(tree.built_by(&mut tree.call()), "", "{tool}, {source}");
    }
}

/// As a compiler's cache does. It does not keep the lock.
#[test]
fn a_tool_leaves_something_running() {
    let tree = Tree::new("im-hintergrund");
    let left = "said by cargo\"; sleep 4 <&- >/dev/null 2>&1 & echo \"";
    tree.tool("bin/cargo", &CARGO.replace("said by cargo", left));
    assert_eq!(tree.built_by(&mut tree.call()), BOTH);
    later();
    tree.write("host/build.rs", "two");
    let output = tree.call().output().expect("it runs");
    let told = "fristen: übersetzt das Programm, einmalig, einige Sekunden ...\n";
    assert_eq!((text(&output.stderr), output.status.code()), (told, Some(0)));
}

#[test]
fn two_calls_at_once_build_once() {
    let tree = Tree::new("zugleich");
    let (first, _) = hanging(&tree, "rt");
    let mut second = tree.call();
    let second = second.stdout(Stdio::piped()).stderr(Stdio::piped());
    let mut second = second.spawn().expect("it runs");
    let mut told = BufReader::new(second.stderr.take().expect("an output")).lines();
    let waits = "fristen: wartet, bis ein anderer Aufruf fertig gebaut hat ...";
    assert_eq!(told.next().and_then(Result::ok).as_deref(), Some(waits));
    fs::remove_file(tree.at("hang-rt")).expect("it is removed");
    assert_eq!(text(&first.wait_with_output().expect("it ends").stderr), FIRST);
    assert_eq!(text(&second.wait_with_output().expect("it ends").stdout), "./fristen\n");
    assert_eq!((told.count(), tree.calls().as_str()), (0, BOTH));
}

/// It was not its build.
#[test]
fn a_call_that_waits_leaves_the_other_alone() {
    let tree = Tree::new("wartend");
    let (first, _) = hanging(&tree, "cargo");
    let mut second = tree.command("env");
    second.args(["--default-signal=TERM", "./fristen"]).stderr(Stdio::piped());
    let mut second = second.spawn().expect("it runs");
    let mut told = BufReader::new(second.stderr.take().expect("an output")).lines();
    assert!(told.next().is_some(), "it waits");
    send("TERM", &second);
    assert_eq!(second.wait().expect("it ends").signal(), Some(15));
    assert_eq!(tree.left_over(), ["fristen.started"]);
    fs::remove_file(tree.at("hang-cargo")).expect("it is removed");
    assert_eq!(first.wait_with_output().expect("it ends").status.code(), Some(0));
    assert_eq!(tree.built_by(&mut tree.call()), "");
}

/// The program is called by the name that was called.
#[test]
fn called_from_elsewhere() {
    let tree = Tree::built("anderswo");
    fs::create_dir_all(tree.at("a/b")).expect("it is made");
    symlink("../fristen", tree.at("a/link")).expect("it is a link");
    symlink("../link", tree.at("a/b/kette")).expect("it is a link");
    let absolute = tree.at("fristen").display().to_string();
    let calls = [("a/b", "../../fristen"), ("a", "./link"), ("a/b", "./kette"), ("a", &absolute)];
    for (folder, name) in calls {
        let output = tree.named(name).current_dir(tree.at(folder)).output().expect("it runs");
        assert_eq!(
            (text(&output.stdout), text(&output.stderr)),
            (format!("{name}\n").as_str(), "")
        );
    }
    let path = format!("{}:/usr/bin:/bin", tree.0.display());
    let script = "echo $0; pwd";
    let mut found = tree.command("env");
    let found = found.env("PATH", path).args(["fristen", "-c", script]).current_dir(tree.at("a"));
    let told = found.output().expect("it runs").stdout;
    assert_eq!(text(&told), format!("{absolute}\n{}\n", tree.at("a").display()));
    let by_bash = tree.command("bash").args(["fristen", "-c", "exit 7"]).status();
    assert_eq!(by_bash.expect("it runs").code(), Some(7));
    assert_eq!(tree.calls(), BOTH);
}

/// A moved or copied repository is its own.
#[test]
fn a_moved_repository_is_looked_at_where_it_is() {
    let tree = Tree::built("umgezogen-vorher");
    let moved = Tree(tree.0.with_file_name("umgezogen"));
    let _ = fs::remove_dir_all(&moved.0);
    fs::rename(&tree.0, &moved.0).expect("it is moved");
    assert_eq!(moved.built_by(&mut moved.call()), "");
    later();
    moved.write("crates/oben/src/lib.rt", "two");
    assert_eq!(moved.built_by(&mut moved.call()), BOTH);
}

#[test]
fn what_the_caller_has_closed_stays_closed() {
    let tree = Tree::new("geschlossen");
    for expected in [BOTH, ""] {
        let script =
            r#"./fristen -c '[ ! -e /proc/$$/fd/0 ] && [ ! -e /proc/$$/fd/1 ] && exit 7' <&- >&-"#;
        let _ = fs::remove_file(tree.at("calls"));
        let mut call = tree.command("bash");
        let status = call.args(["-c", script]).output().expect("it runs").status;
        assert_eq!((status.code(), tree.calls().as_str()), (Some(7), expected));
    }
    let input = File::open(tree.at("crates.txt")).expect("it is there");
    let mut call = tree.command("./fristen");
    call.args(["-c", "cat; exit 5"]).stdin(input);
    let output = call.output().expect("it runs");
    assert_eq!((output.status.code(), text(&output.stdout)), (Some(5), CRATES));
}

/// Writes the option that it is called with, and its own name.
const PROGRAM: &str = r#"#!/bin/bash
[ "$1" != "$(cat "$TREE/fails" 2>/dev/null)" ] || exit 70
[ "$1" != "$(cat "$TREE/hangs" 2>/dev/null)" ] || { echo $$ >"$TREE/hanging"; exec sleep 60; }
echo "new $1"
"#;
const INSTALLED: [(&str, u32, &str); 3] = [
    ("share/man/man1/fristen.1", 0o644, "new --manpage\n"),
    ("share/bash-completion/completions/fristen", 0o644, "new --bash-completion\n"),
    ("bin/fristen", 0o755, PROGRAM),
];

/// Whose program is the script.
fn installing(name: &str) -> Tree {
    let tree = Tree::built(name);
    fs::remove_file(tree.at("target/host/release/fristen")).expect("it is removed");
    tree.tool("target/host/release/fristen", PROGRAM);
    tree
}

/// With folders that nobody else may read, unless it sees to that.
fn install(tree: &Tree) -> Command {
    let mut call = tree.command("sh");
    call.args(["-c", "umask 077 && exec ./install \"$@\"", "sh"]).env("TMPDIR", tree.at("tmp"));
    fs::create_dir_all(tree.at("tmp")).expect("it is made");
    call
}

fn mode(place: &Path) -> u32 {
    fs::metadata(place).expect("it is there").permissions().mode() & 0o777
}

/// Every file below a folder, without it.
fn files(folder: &Path) -> Vec<String> {
    let found = Command::new("find").arg(folder).args(["-type", "f", "-printf", "%P\\n"]).output();
    let mut files: Vec<_> =
        text(&found.expect("it runs").stdout).lines().map(str::to_owned).collect();
    files.sort();
    files
}

#[test]
fn what_is_installed() {
    let tree = installing("abgelegt");
    let absolute = tree.at("frei").display().to_string();
    let calls: [(&[&str], Option<&str>, &str); 3] = [
        (&["eigenes"], None, "eigenes"),
        (&[&absolute], Some(""), "frei"),
        (&[], Some("paket"), "paket/usr/local"),
    ];
    for (arguments, below, folder) in calls {
        let mut call = install(&tree);
        if let Some(below) = below {
            let below = if below.is_empty() { PathBuf::new() } else { tree.at(below) };
            call.env("DESTDIR", below);
        }
        let output = call.args(arguments).output().expect("it runs");
        assert_eq!((output.status.code(), text(&output.stderr)), (Some(0), ""), "{folder}");
        let places = INSTALLED.map(|(file, ..)| tree.at(folder).join(file));
        let told = places.each_ref().map(|place| format!("{}\n", place.display()));
        assert_eq!(text(&output.stdout), told.concat());
        for (place, (file, given, content)) in places.iter().zip(INSTALLED) {
            assert_eq!(fs::read_to_string(place).expect("it is there"), content, "{file}");
            assert_eq!(mode(place), given, "{file}");
            let folders = place.ancestors().skip(1).take_while(|it| *it != tree.0);
            folders.for_each(|it| assert_eq!(mode(it), 0o755, "{}", it.display()));
        }
        assert_eq!(files(&tree.at(folder)).len(), INSTALLED.len());
    }
    assert_eq!(files(&tree.at("tmp")), [""; 0]);
}

/// It is the link that is replaced, not a file of that folder.
#[test]
fn a_link_to_a_folder_in_the_place_of_a_file() {
    let tree = installing("abgelegt-link");
    tree.write("woanders/datei", "old");
    fs::create_dir_all(tree.at("usr/bin")).expect("it is made");
    symlink("../../woanders", tree.at("usr/bin/fristen")).expect("it is a link");
    let output = install(&tree).arg("usr").output().expect("it runs");
    assert_eq!((output.status.code(), text(&output.stderr)), (Some(0), ""));
    assert_eq!(fs::read_to_string(tree.at("usr/bin/fristen")).expect("a file"), PROGRAM);
    assert_eq!(files(&tree.at("woanders")), ["datei"]);
}

/// The real one: what is installed needs nothing of the repository.
#[test]
fn the_program_that_is_installed() {
    let tree = installing("abgelegt-echt");
    let built = tree.at("target/host/release/fristen");
    fs::remove_file(&built).expect("it is removed");
    symlink(env!("CARGO_BIN_EXE_fristen"), built).expect("it is a link");
    let output = install(&tree).arg("usr").output().expect("it runs");
    assert_eq!((output.status.code(), text(&output.stderr)), (Some(0), ""));
    let moved = tree.0.with_file_name("abgelegt-echt-usr");
    let _ = fs::remove_dir_all(&moved);
    fs::rename(tree.at("usr"), &moved).expect("it is moved");
    fs::remove_dir_all(&tree.0).expect("it is removed");
    let run = |script: &str| {
        let mut bash = Command::new("bash");
        let bash = bash.args(["--norc", "-c", script]).current_dir(&moved);
        let output = bash.output().expect("it runs");
        assert_eq!((output.status.code(), text(&output.stderr)), (Some(0), ""), "{script}");
        text(&output.stdout).to_owned()
    };
    let version = format!("fristen {}\n", env!("CARGO_PKG_VERSION"));
    assert_eq!(run("bin/fristen --version"), version);
    // Of a printed calendar: a Wednesday, eleven days before the first Sunday of Advent.
    let day = "Mittwoch, der 18. November 2026, ist kein Werktag: Buß- und Bettag.\n";
    assert_eq!(run("bin/fristen tag 2026-11-18"), day);
    let page = fs::read_to_string(moved.join("share/man/man1/fristen.1")).expect("a page");
    assert!(page.starts_with(".TH FRISTEN 1 "), "{page}");
    assert!(page.contains("\n$ fristen tag ") && !page.contains("./fristen"), "as it is called");
    let completed = "source share/bash-completion/completions/fristen
        PATH=$PWD/bin COMP_WORDS=(fristen kalen) COMP_CWORD=1
        complete -p fristen >/dev/null && _fristen && echo \"${COMPREPLY[@]}\"";
    assert_eq!(run(completed).trim(), "kalender");
}

/// Of an older one all files stay, each whole, and nothing lies beside them.
#[test]
fn an_installation_that_does_not_end() {
    let rows = [("--manpage", "Handbuchseite"), ("--bash-completion", "Vervollständigung")];
    for (what, (option, name)) in
        ["fails", "hangs"].into_iter().flat_map(|it| rows.map(|row| (it, row)))
    {
        let tree = installing(&format!("abgelegt-{what}{option}"));
        for (file, ..) in INSTALLED {
            tree.write(&format!("usr/{file}"), "old");
        }
        tree.write(what, option);
        let mut call = install(&tree);
        call.arg("usr").stdout(Stdio::piped()).stderr(Stdio::piped());
        let child = call.spawn().expect("it runs");
        if what == "hangs" {
            until("the program runs", || tree.at("hanging").exists());
            send("TERM", &child);
        }
        let output = child.wait_with_output().expect("it ends");
        let expected = if what == "hangs" { (None, Some(15)) } else { (Some(69), None) };
        assert_eq!((output.status.code(), output.status.signal()), expected);
        let told = format!("install: die {name} ließ sich nicht erzeugen.\n");
        let told = if what == "hangs" { "" } else { &told };
        assert_eq!((text(&output.stdout), text(&output.stderr)), ("", told));
        let found = INSTALLED.map(|(file, ..)| fs::read_to_string(tree.at("usr").join(file)));
        assert_eq!(found.map(|it| it.expect("it is there")), ["old"; 3]);
        assert_eq!(files(&tree.at("usr")).len(), INSTALLED.len());
        assert_eq!(files(&tree.at("tmp")), [""; 0]);
    }
}

#[test]
fn what_cannot_be_built_is_not_installed() {
    let tree = Tree::new("nicht-abgelegt");
    tree.write("fail-rt", "");
    let output = tree.command("./install").arg("usr").output().expect("it runs");
    assert_eq!(output.status.code(), Some(69));
    assert!(text(&output.stderr).ends_with("\nfristen: die Bibliothek ließ sich nicht bauen.\n"));
    assert!(!tree.at("usr").exists());
}

#[test]
fn how_it_is_not_installed() {
    let tree = Tree::new("falsch-abgelegt");
    let calls: [(&[&str], &str); 3] = [
        (&["a", "b"], "erwartet nur ein PREFIX"),
        (&["--prefix=usr"], "unbekannte Option: --prefix=usr"),
        (&[""], "das PREFIX ist leer"),
    ];
    for (arguments, why) in calls {
        let output = tree.command("./install").args(arguments).output().expect("it runs");
        assert_eq!((output.status.code(), text(&output.stdout)), (Some(64), ""));
        let told = format!("install: {why}. Mehr: ./install --help\n");
        assert_eq!((text(&output.stderr), tree.calls().as_str()), (told.as_str(), ""));
    }
    let help = tree.command("./install").arg("--help").output().expect("it runs");
    assert_eq!((help.status.code(), text(&help.stderr)), (Some(0), ""));
    let help = text(&help.stdout);
    assert!(help.starts_with("Aufruf: ./install [PREFIX]\n"), "{help}");
    for status in ["64", "69", "73"] {
        assert!(help.contains(&format!("mit {status}, wenn ")), "{help}");
    }
}

/// A folder in the place of a file, and a file in that of a folder; in the last place that is tried.
#[test]
fn where_nothing_can_be_installed() {
    let rows: [(&str, &str, &str); 2] = [
        ("usr/bin/fristen/datei", "usr/bin/fristen", "ist ein Verzeichnis."),
        ("usr/bin", "usr/bin/fristen", "lässt sich nicht schreiben."),
    ];
    for (number, (there, place, why)) in rows.into_iter().enumerate() {
        let tree = installing(&format!("nicht-zu-schreiben-{number}"));
        tree.write(there, "old");
        let output = install(&tree).arg("usr").output().expect("it runs");
        assert_eq!((output.status.code(), text(&output.stdout)), (Some(73), ""));
        let told = text(&output.stderr).lines().last().unwrap_or_default();
        assert_eq!(told, format!("install: {} {why}", tree.at(place).display()));
        let file = there.strip_prefix("usr/").expect("below it");
        assert_eq!(files(&tree.at("usr")), [file], "nothing new");
        assert_eq!(files(&tree.at("tmp")), [""; 0]);
    }
}
