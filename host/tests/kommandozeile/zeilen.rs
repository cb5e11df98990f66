//! What `fristen fragen` and `fristen portfolio` have in common: they read lines.

use super::program;
use std::fs;
use std::io::{Read, Write};
use std::path::{Path, PathBuf};
use std::process::{Command, Output, Stdio};
use std::sync::mpsc;
use std::thread;
use std::time::Duration;

/// The command of this name with these arguments, fed with these bytes.
pub fn fed(name: &str, arguments: &[&str], input: &[u8]) -> Output {
    let mut child = program()
        .arg(name)
        .args(arguments)
        .stdin(Stdio::piped())
        .stdout(Stdio::piped())
        .stderr(Stdio::piped())
        .spawn()
        .expect("the program runs");
    let mut stdin = child.stdin.take().expect("a pipe");
    let input = input.to_vec();
    // It may end before it has read everything.
    let feeder = thread::spawn(move || stdin.write_all(&input).unwrap_or_default());
    let output = child.wait_with_output().expect("it ends");
    feeder.join().expect("it is fed");
    output
}

/// The lines that it printed.
pub fn lines(output: &Output) -> Vec<String> {
    let text = str::from_utf8(&output.stdout).expect("UTF-8");
    assert!(text.is_empty() || text.ends_with('\n'));
    text.lines().map(str::to_owned).collect()
}

/// What it complained of.
pub fn complaints(output: &Output) -> String {
    String::from_utf8(output.stderr.clone()).expect("UTF-8")
}

pub fn file(name: &str, content: impl AsRef<[u8]>) -> PathBuf {
    let path = PathBuf::from(env!("CARGO_TARGET_TMPDIR")).join(name);
    fs::write(&path, content).expect("a file is written");
    path
}

/// What it says in a terminal, where both outputs are one, and the status.
pub fn said(name: &str, path: &Path) -> (String, Option<i32>) {
    let (mut reader, writer) = std::io::pipe().expect("a pipe");
    let both = writer.try_clone().expect("a pipe");
    let status = program().arg(name).arg(path).stdout(writer).stderr(both).status();
    let mut said = String::new();
    reader.read_to_string(&mut said).expect("UTF-8");
    (said, status.expect("it runs").code())
}

/// The answer, which must come within half a minute.
fn within<T: Send + 'static>(read: impl FnOnce() -> T + Send + 'static) -> T {
    let (sender, receiver) = mpsc::channel();
    thread::spawn(move || sender.send(read()));
    receiver.recv_timeout(Duration::from_secs(30)).expect("an answer in time")
}

/// A line is answered as soon as it has ended, although the next has begun: `first` before the `rest`
/// of the input comes, and `second` behind it.
pub fn assert_at_once(name: &str, pieces: [&str; 3], first: &str, rest: &str, second: &str) {
    let child = program().arg(name).stdin(Stdio::piped()).stdout(Stdio::piped()).spawn();
    let mut child = child.expect("the program runs");
    let mut stdin = child.stdin.take().expect("a pipe");
    let mut stdout = child.stdout.take().expect("a pipe");
    for piece in pieces {
        stdin.write_all(piece.as_bytes()).expect("it is read");
    }
    let mut answer = vec![0; first.len()];
    let (mut stdout, answer) = within(move || {
        stdout.read_exact(&mut answer).expect("an answer");
        (stdout, answer)
    });
    assert_eq!(String::from_utf8_lossy(&answer), first);
    stdin.write_all(rest.as_bytes()).expect("it is read");
    drop(stdin);
    let mut answer = String::new();
    stdout.read_to_string(&mut answer).expect("UTF-8");
    assert_eq!((answer.as_str(), child.wait().expect("it ends").code()), (second, Some(0)));
}

/// A file that is not there, and a folder, as a file and as the standard input.
pub fn assert_unread(name: &str, forms: &[&[&str]]) {
    let folder = env!("CARGO_TARGET_TMPDIR");
    let missing = format!("{folder}/gibt es nicht.txt");
    let no_file = format!("„{missing}“ lässt sich nicht lesen. Diese Datei gibt es nicht.");
    let no_text = format!("„{folder}“ lässt sich nicht lesen. Das ist ein Verzeichnis.");
    for (path, expected) in [(missing.as_str(), no_file), (folder, no_text)] {
        for form in forms {
            let output = fed(name, &[&[path], *form].concat(), b"");
            assert_eq!((output.status.code(), output.stdout.as_slice()), (Some(66), &b""[..]));
            assert_eq!(complaints(&output), format!("fristen: {expected}\n"));
        }
    }
    let input = Stdio::from(fs::File::open(folder).expect("a folder is opened"));
    let output = program().arg(name).stdin(input).output().expect("it runs");
    assert_eq!(output.status.code(), Some(66));
    let expected =
        "fristen: Die Standardeingabe lässt sich nicht lesen. Das ist ein Verzeichnis.\n";
    assert_eq!(complaints(&output), expected);
    #[cfg(target_os = "linux")]
    assert_not_open(name, forms);
}

/// A standard input that is closed or open for writing alone is not an empty one.
#[cfg(target_os = "linux")]
fn assert_not_open(name: &str, forms: &[&[&str]]) {
    let program = env!("CARGO_BIN_EXE_fristen");
    let fed = |form: &[&str], input: &str| {
        let script = format!("exec \"$0\" \"$@\" {input}");
        let mut shell = Command::new("sh");
        shell.args(["-c", &script, program, name]).args(form).output().expect("it runs")
    };
    let why = "Die Standardeingabe lässt sich nicht lesen. Sie ist nicht zum Lesen geöffnet.";
    for form in forms.iter().copied().chain([&["-"][..]]) {
        for input in ["<&-", "0>/dev/null"] {
            let output = fed(form, input);
            assert_eq!((output.status.code(), output.stdout.as_slice()), (Some(66), &b""[..]));
            assert_eq!(complaints(&output), format!("fristen: {why}\n"), "{form:?} {input}");
        }
        for input in ["</dev/null", "0<>/dev/null"] {
            let output = fed(form, input);
            assert_eq!((output.status.code(), output.stderr), (Some(0), vec![]), "{input}");
        }
    }
}

/// How far it has come, which a terminal that can go back in its line shows after a second.
pub fn assert_shows_progress(name: &str, line: &str, what: &str) {
    let script = format!(
        "(echo {line}; sleep 1.3; echo {line}) | {} {name} >/dev/null",
        env!("CARGO_BIN_EXE_fristen")
    );
    for (kind, expected) in
        [("xterm", format!("\r\u{1b}[Kfristen: 2 {what} ...\r\u{1b}[K")), ("dumb", String::new())]
    {
        let mut terminal = Command::new("script");
        terminal
            .args(["-qec", &script, "/dev/null"])
            .env("TERM", kind)
            .env("SHELL", "/bin/sh")
            .stdin(Stdio::null());
        let output = terminal.output().expect("it runs");
        assert_eq!((output.status.code(), output.stdout), (Some(0), expected.into_bytes()));
    }
}

/// A reader that goes away behind `first` is no failure: the status is that of the lines until then.
pub fn assert_may_go_away<const N: usize>(name: &str, path: &Path, first: &[u8; N], status: i32) {
    let (mut reader, writer) = std::io::pipe().expect("a pipe");
    let child = program().arg(name).arg(path).stdout(writer).stderr(Stdio::piped()).spawn();
    let mut read = [0; N];
    reader.read_exact(&mut read).expect("an answer");
    drop(reader);
    let output = child.expect("the program runs").wait_with_output().expect("it ends");
    assert_eq!((output.status.code(), output.stderr, &read), (Some(status), vec![], first));
}

/// Of a file with a line that cannot be read: neither the answers nor the complaint can be written.
/// In the second case there are so many answers all the same.
#[cfg(target_os = "linux")]
pub fn assert_unwritten(name: &str, path: &Path, answers: usize) {
    let full = || fs::OpenOptions::new().write(true).open("/dev/full").expect("/dev/full");
    let output = program().arg(name).arg(path).stdout(full()).output().expect("it runs");
    assert_eq!(output.status.code(), Some(74));
    let complaint = complaints(&output);
    assert!(
        complaint.ends_with("fristen: Die Ausgabe ließ sich nicht schreiben.\n"),
        "{complaint}"
    );
    let output = program().arg(name).arg(path).stderr(full()).output().expect("it runs");
    assert_eq!((output.status.code(), lines(&output).len()), (Some(74), answers));
}
