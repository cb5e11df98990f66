//! The program `fristen`. Expected dates and instants are document 01's cases, or known without the
//! program (a printed calendar, `date -d`).

#[path = "kommandozeile/eingabe.rs"]
mod eingabe;
#[path = "kommandozeile/fragen.rs"]
mod fragen;
#[path = "kommandozeile/json.rs"]
mod json;
#[path = "kommandozeile/kurz.rs"]
mod kurz;
#[path = "kommandozeile/leser.rs"]
mod leser;
#[path = "kommandozeile/portfolio.rs"]
mod portfolio;
#[path = "kommandozeile/raender.rs"]
mod raender;
#[path = "kommandozeile/saetze.rs"]
mod saetze;
#[path = "kommandozeile/seite.rs"]
mod seite;
#[path = "kommandozeile/urteile.rs"]
mod urteile;
#[path = "kommandozeile/zeilen.rs"]
mod zeilen;

use json::object;
use leser::Value;
use mako_fristen_host::{
    ffi, Answer, Call, Clock, Date, DayReason, Instant, Parameter, Question, Reason,
};
use saetze::{ANNOUNCEMENTS, CASES, CHANGE_DAYS, DAYS, DUE, STEPS, TOLERANCE, TWICE};
use std::ffi::{OsStr, OsString};
use std::fs;
use std::os::unix::process::CommandExt;
use std::path::Path;
use std::process::{Command, Output, Stdio};

/// As it is called at the repository's root.
fn program() -> Command {
    let mut program = Command::new(env!("CARGO_BIN_EXE_fristen"));
    program.arg0("./fristen");
    program
}

fn run<T: AsRef<OsStr>>(arguments: &[T]) -> Output {
    program().args(arguments).output().expect("the program runs")
}

/// The standard output of a call with this status that complains of nothing.
fn printed<T: AsRef<OsStr>>(arguments: &[T], status: i32) -> String {
    let output = run(arguments);
    let shown: Vec<_> = arguments.iter().map(AsRef::as_ref).collect();
    assert_eq!(String::from_utf8_lossy(&output.stderr), "", "{shown:?}");
    assert_eq!(output.status.code(), Some(status), "{shown:?}");
    String::from_utf8(output.stdout).expect("UTF-8")
}

fn words(line: &str) -> Vec<&str> {
    line.split_whitespace().collect()
}

fn assert_prints(calls: &[(&str, &str)]) {
    for (line, expected) in calls {
        assert_eq!(printed(&words(line), 0), format!("{expected}\n"), "{line}");
    }
}

/// What a call prints that is no call: nothing, and a complaint.
fn complaint<T: AsRef<OsStr>>(arguments: &[T]) -> String {
    let output = run(arguments);
    let shown: Vec<_> = arguments.iter().map(AsRef::as_ref).collect();
    assert_eq!(output.status.code(), Some(64), "{shown:?}");
    assert_eq!(output.stdout, b"", "{shown:?}");
    String::from_utf8(output.stderr).expect("UTF-8")
}

/// The names in the source: `is-werktag`.
fn source_names() -> impl Iterator<Item = (Call, String)> {
    Call::ALL.into_iter().map(|call| (call, call.name()[3..].replace('_', "-")))
}

/// Without the two columns of the help.
fn unindented(block: &str) -> String {
    block.lines().map(|line| format!("{}\n", line.strip_prefix("  ").unwrap_or(line))).collect()
}

/// A file that an example shows is there when it is run.
#[test]
fn the_examples_of_the_help_print_what_it_says() {
    let folder = Path::new(env!("CARGO_TARGET_TMPDIR"));
    let others = ["kalender", "bis-wann", "fragen", "portfolio"].map(str::to_owned);
    for name in source_names().map(|(_, name)| name).chain(others) {
        let help = printed(&["help", &name], 0);
        assert_eq!(help, printed(&[&name, "--help"], 0), "{name}");
        assert_eq!(help, printed(&["-h", &name], 0), "{name}");
        let (before, examples) = help.split_once("\n  $ ./fristen ").expect("an example");
        if let Some((_, file)) = before.split_once("\n  $ cat ") {
            let (file, content) = file.split_once('\n').expect("its content");
            fs::write(folder.join(file), unindented(content)).expect("it is written");
        }
        for example in examples.split("\n  $ ./fristen ") {
            let (call, expected) = example.split_once('\n').expect("its output");
            let output = program().current_dir(folder).args(words(call)).output().expect("it runs");
            assert_eq!(String::from_utf8_lossy(&output.stdout), unindented(expected), "{call}");
            assert_eq!((output.status.code(), output.stderr), (Some(0), vec![]), "{call}");
        }
    }
}

#[test]
fn every_call_is_asked_under_its_own_name() {
    for (call, name) in source_names() {
        let help = printed(&["help", &name], 0);
        let (_, example) = help.split_once("\n  $ ./fristen ").expect("an example");
        let line = example.lines().next().expect("a line");
        let mut arguments = words(line);
        arguments.push("--json");
        let expected = format!("{{\"version\":1,\"call\":\"{}\",\"arguments\":[\"", call.name());
        let json = printed(&arguments, 0);
        assert!(json.starts_with(&expected), "{json}");
        for name in [&name, &name.replace('-', "_"), call.name()] {
            arguments[0] = name;
            assert_eq!(printed(&arguments, 0), json, "{name}");
        }
    }
}

#[test]
fn the_cases_of_document_01() {
    assert_prints(CASES);
}

#[test]
fn announcements() {
    assert_prints(ANNOUNCEMENTS);
}

#[test]
fn days_counts_and_instants() {
    assert_prints(DAYS);
}

#[test]
fn steps_and_what_they_skip() {
    assert_prints(STEPS);
}

/// Some 30 ms; in seconds where nothing is optimised and other tests run beside it.
#[test]
fn a_step_over_centuries_is_soon_there() {
    let started = std::time::Instant::now();
    let step = printed(&["add-werktage", "1996-01-01", "200000"], 0);
    assert!(started.elapsed() < std::time::Duration::from_secs(10), "{:?}", started.elapsed());
    let expected =
        "Der 200000. Werktag nach Montag, dem 1. Januar 1996, ist Mittwoch, der 21. April \
                    2810.\nÜbersprungen: 42488 Samstage, 42488 Sonntage und 12442 Feiertage an \
                    anderen Tagen.\n";
    assert_eq!(step, expected);
}

#[test]
fn due_instants() {
    assert_prints(DUE);
}

#[test]
fn contrl_with_a_change_day() {
    assert_prints(CHANGE_DAYS);
}

#[test]
fn contrl_in_the_window_of_a_formatumstellung() {
    assert_prints(TOLERANCE);
}

#[test]
fn a_time_that_the_clock_shows_twice_is_named() {
    assert_prints(TWICE);
    let given = "contrl Regelfall 2026-10-25T02:30:00+02:00";
    assert!(!printed(&words(given), 0).contains("zweimal"), "its offset tells it");
    let end =
        "zeigt die Uhr in Berlin zweimal 02:30 Uhr; gemeint ist die frühere. Nach der späteren \
               fragt, wer +01:00 dahinter schreibt.\n";
    for line in [
        "aperak-strom 2026-10-25T02:30",
        "aperak-strom-allgemein 2026-10-25T02:30",
        "aperak-gas-folgeprozess 2026-10-25T02:30",
        "aperak-gas-initialprozess 2026-10-25T02:30",
        "aperak-gas 44001 2026-10-25T02:30",
        "deadline-at-werktage 2026-10-25T02:30 1",
        "end-of-werktag-after 2026-10-25T02:30 1",
        "next-werktag-at 2026-10-25T02:30 12:00",
        "nth-werktag-at 2026-10-25T02:30 2 12:00",
        "frist SameDay 2026-10-25T02:30",
        "ankuendigung 2026-10-25T02:30 2026-10-27",
    ] {
        let sentence = printed(&words(line), 0);
        assert_eq!((sentence.ends_with(end), sentence.matches("zweimal").count()), (true, 1));
        assert!(!printed(&words(&line.replace("02:30", "03:00")), 0).contains("zweimal"), "{line}");
    }
}

/// The option and the call's own name are one question; without the option it is version one.
#[test]
fn the_change_day_is_an_option_of_contrl() {
    let received = "2026-03-31T12:00:00+02:00";
    let asked = ["contrl", "Regelfall", received, "--stichtag", "2026-04-01"];
    let own = ["mf_contrl_due_at_change", "Regelfall", received, "2026-04-01"];
    let sentence = printed(&asked, 0);
    assert_eq!(sentence, printed(&own, 0));
    assert_eq!(sentence, printed(&["contrl_due_at", "Regelfall", received, asked[3], asked[4]], 0));
    // 2026-04-01T22:00:00Z is 1,775,080,800 seconds, 0x69cd_9560.
    let bytes = printed(&[&asked[..], &["--bytes"]].concat(), 0);
    assert_eq!(bytes, format!("{}6095cd69{}\n", "00".repeat(8), "00".repeat(20)));
    assert_eq!(bytes, printed(&[&own[..], &["--bytes"]].concat(), 0));
    let version_one = printed(&asked[..3], 0);
    assert!(!version_one.contains("Stichtag"), "{version_one}");
    let call = |line: &[&str]| object(&line.join(" "), 0).get("call").clone();
    assert_eq!(call(&asked[..3]), Value::Text("mf_contrl_due_at".to_owned()));
    assert_eq!(call(&asked), Value::Text("mf_contrl_due_at_change".to_owned()));
    let help = printed(&["help", "contrl"], 0);
    assert!(help.starts_with("Aufruf: ./fristen contrl ANLASS EINGANG [--stichtag DATUM]\n"));
    assert_eq!(help.matches("\n  $ ./fristen contrl ").count(), 3, "{help}");
    assert!(help.contains(" --stichtag 2026-06-06\n"), "{help}");
}

/// The day beside the change day is no result; a due instant is one.
#[test]
fn what_leaves_the_calendar_with_a_change_day() {
    let last = "dem 31. Dezember 2899, dem letzten Tag des Kalenders.";
    let before =
        "Der Tag vor dem Stichtag liegt vor dem 1. Januar 1996, dem ersten Tag des Kalenders.";
    let after = format!("Der Tag nach dem Stichtag liegt hinter {last}");
    let result = format!("Das Ende der Frist liegt hinter {last}");
    let rows = [
        ("contrl Regelfall 2026-06-05T12:00:00Z --stichtag 1996-01-01", before),
        ("contrl Regelfall 2026-06-05T12:00:00Z --stichtag 2899-12-31", &after),
        ("contrl-due-at-change Regelfall @29348002799 2899-12-31", &after),
        ("contrl Regelfall @29348002799 --stichtag 2899-12-30", &result),
        ("contrl Regelfall @29348002799", &result),
    ];
    for (line, sentence) in rows {
        assert_eq!(printed(&words(line), 2), format!("Abgelehnt (8): {sentence}\n"), "{line}");
        assert_refusal(line, 8, sentence);
    }
}

/// In JSON, in the bytes and in the help; a refusal has none.
#[test]
fn the_margin_of_a_verdict() {
    let check = ["check", "LatestWerktageBefore", "1", "2026-01-10", "2026-01-12"];
    let bytes = printed(&[&check[..], &["--bytes"]].concat(), 0);
    let fields = ["0001000000000000", &"00".repeat(12), "ea07010c", "00000000", "ffffffff\n"];
    assert_eq!(bytes, fields.concat());
    let help = printed(&["help", "check"], 0);
    assert!(help.contains("\n„margin“ in --json: die Tage vom Übertragungstag "), "{help}");
    for command in ["check", "check-at", "abmeldung"] {
        let help = printed(&["help", command], 0).replace('\n', " ");
        assert!(help.contains("um wie viele Kalendertage"), "{help}");
    }
    assert_eq!(object("check Korridor 1 1996-01-01 1996-01-01", 2).get("margin"), &Value::Null);
}

/// The refusal as JSON, behind which nothing is answered.
fn assert_refusal(line: &str, number: i64, text: &str) {
    let object = object(line, 2);
    let refusal = object.get("refusal");
    assert_eq!(refusal.get("number"), &Value::Number(number), "{line}");
    assert_eq!(refusal.get("text"), &Value::Text(text.to_owned()), "{line}");
    let content = object.members().iter().skip_while(|(key, _)| key != "refusal").skip(1);
    assert!(
        content.clone().count() > 0 && content.clone().all(|(_, value)| *value == Value::Null),
        "{object:?}"
    );
}

/// Every number that can be reached: 1 and 2 need a slice or a code that the program never gives.
#[test]
fn refusals_with_their_number() {
    let refused = [
        (3, "tag 1995-12-31"),
        (3, "tag 2026-02-29"),
        (3, "tag 9999-99-99"),
        (3, "kalender 1995"),
        (3, "kalender 4294967295"),
        (3, "abmeldung ZQ7 --eeg ja 2026-01-08 2026-02-29"),
        (3, "berlin-date 2026-02-29T00:00:00Z"),
        (3, "ankuendigung 2026-01-12T00:00:00Z 1995-01-01"),
        (3, "contrl Regelfall 2026-06-05T12:00:00Z --stichtag 2026-02-29"),
        (3, "contrl-due-at-change GasAlocat 1995-01-01T00:00:00Z 2900-01-01"),
        (4, "berlin-date 1995-12-31T22:59:59Z"),
        (4, "berlin-date 0000-01-01T00:00:00Z"),
        (4, "berlin-date @1774972799s1000000000ns"),
        (4, "add-hours @-9223372036854775808 1"),
        (4, "contrl Regelfall 1995-01-01T00:00:00Z --stichtag=1996-01-01"),
        (4, "check-at Korridor 1 2026-01-12T00:00:00Z 9999-12-31T00:00:00Z Gas"),
        (5, "berlin-at 2026-01-01 24:00"),
        (5, "berlin-date 2016-12-31T23:59:60Z"),
        (5, "next-werktag-at 2026-01-01T00:00:00Z 00:00:60"),
        (6, "berlin-at 2026-03-29 02:30"),
        (6, "frist SameDayAt 02:00 2026-03-29T12:00:00Z"),
        (7, "tag-des-beginns 2026-03-29T05:00:00Z Gas"),
        (7, "check-at Korridor 1 2026-01-12T00:00:00Z 2026-01-12T00:00:00Z Strom"),
        (8, "add-werktage 2899-12-31 1"),
        (8, "add-werktage 2026-04-02 4294967295"),
        (8, "sub-werktage 2026-04-02 4294967295"),
        (8, "sub-werktage 1996-01-01 4294967295"),
        (8, "add-hours 2899-12-31T22:00:00Z 1"),
        (8, "contrl Regelfall 2899-12-31T17:00:00Z --stichtag 2026-06-06"),
        (8, "contrl Regelfall 2026-06-05T12:00:00Z --stichtag 1996-01-01"),
        (8, "span LatestMonateBefore 4294967295 2026-01-01"),
    ];
    for (number, line) in refused {
        let sentence = printed(&words(line), 2);
        assert!(sentence.starts_with(&format!("Abgelehnt ({number}): ")), "{line}: {sentence}");
        assert!(sentence.ends_with(".\n") && sentence.lines().count() == 1, "{sentence}");
        let text = sentence.trim_end().split_once(": ").expect("a sentence").1;
        assert_refusal(line, number, text);
    }
}

/// Its kind is 0, as a Werktag's: neither words nor JSON nor the status may say that it is one.
#[test]
fn a_refused_day_is_no_werktag() {
    for day in ["1995-12-31", "2900-01-01", "2026-02-29"] {
        let sentence = printed(&["tag", day], 2);
        assert!(sentence.starts_with("Abgelehnt (3): "), "{sentence}");
        let json = printed(&["tag", day, "--json"], 2);
        assert!(json.contains("\"refusal\":{\"number\":3,"), "{json}");
        assert!(json.contains("\"werktag\":null,\"kind\":null,\"kind_name\":null"), "{json}");
        let short = run(&["tag", day, "--kurz", "--status"]);
        assert_eq!((short.status.code(), &short.stdout[..]), (Some(2), &b""[..]));
        for text in [sentence, json, String::from_utf8_lossy(&short.stderr).into_owned()] {
            assert!(!text.contains("Werktag"), "{text}");
        }
        assert_eq!(printed(&["tag", day, "--bytes"], 2), format!("03{}\n", "00".repeat(31)));
    }
    assert_eq!(printed(&["tag", "2026-04-07", "--bytes"], 0), format!("{}\n", "00".repeat(32)));
}

/// All of them beside their names, and that a refusal is none.
#[test]
fn the_help_of_tag_has_the_reasons() {
    let help = printed(&["tag", "--help"], 0);
    let reasons = (0..=22).filter_map(DayReason::of_number);
    let rows: String = reasons.map(|r| format!("  {:2}  {}\n", r.number(), r.name())).collect();
    assert!(
        rows.starts_with("   0  Werktag\n") && rows.ends_with("  22  Fronleichnam\n"),
        "{rows}"
    );
    assert!(help.contains(&format!("\n{rows}\n")), "{help}");
    assert!(help.contains("\nEin abgelehnter Aufruf ist keine Antwort"), "{help}");
}

/// In the bytes, in JSON and in the help, but not in the sentence, which is read out.
#[test]
fn a_count_with_the_days_that_it_tested() {
    let count = ["werktage-between", "2026-04-02", "2026-04-07"];
    let sentence = printed(&count, 0);
    assert!(sentence.ends_with(", liegt 1 Werktag.\n") && !sentence.contains("189"), "{sentence}");
    let bytes = printed(&[&count[..], &["--bytes"]].concat(), 0);
    let (werktage, days_tested) = ("01000000", "bd000000");
    let fields = ["00000000", werktage, &"00".repeat(16), days_tested, "00000000\n"];
    assert_eq!(bytes, fields.concat());
    let help = printed(&["help", "werktage-between"], 0);
    assert!(help.contains("\n„days_tested“ in --json: die geprüften Tage, "), "{help}");
    let refused = object("werktage-between 2026-04-02 2026-02-29", 2);
    assert_eq!([refused.get("count"), refused.get("days_tested")], [&Value::Null; 2]);
}

const WRONG: &[(&str, &str)] = &[
    ("tag", "es fehlt: DATUM"),
    ("tag 2026-4-2", "DATUM: erwartet ein Datum wie 2026-04-02 oder 2.4.2026, nicht „2026-4-2“"),
    ("tag 2026-01-01 5", "zu viel: „5“"),
    ("tag 2026-01-01 --eeg ja", "--eeg gehört nicht zu diesem Befehl"),
    ("add-werktage 2026-01-01 -1", "N: erwartet eine Zahl wie 5, nicht „-1“"),
    (
        "add-werktage 1 2026-01-01",
        "DATUM: erwartet ein Datum wie 2026-04-02 oder 2.4.2026, nicht „1“",
    ),
    ("check WerktageVorher 2.4.2026 7.4.2026", "es fehlt: N, eine Zahl vor „2.4.2026“"),
    ("add-werktage 2026-01-01 4294967296", "N: erwartet höchstens 4294967295, nicht „4294967296“"),
    ("add-werktage 2026-01-01 +1", "N: erwartet eine Zahl"),
    ("berlin-at 2026-01-01 1", "UHRZEIT: erwartet eine Uhrzeit wie 13:00"),
    ("berlin-date 2026-01-01", "ZEITPUNKT: erwartet zum Datum eine Uhrzeit, wie 2026-01-01 11:59"),
    ("berlin-date heute 11", "ZEITPUNKT: erwartet zum Datum eine Uhrzeit, wie heute 11:00, nicht"),
    ("berlin-date 11:00", "ZEITPUNKT: erwartet zur Uhrzeit ein Datum, wie heute 11:00, nicht"),
    (
        "berlin-date bald",
        "ZEITPUNKT: erwartet einen Zeitpunkt wie 31.3.2026 11:59 oder heute 11:59",
    ),
    ("berlin-date @1774000000.", "oder @SEKUNDEN seit 1970, nicht „@1774000000.“"),
    ("berlin-date 2016-12-31T23:59:59+24:00", "ZEITPUNKT: erwartet einen Abstand zu UTC"),
    ("contrl Fall 2026-01-01T00:00:00Z", "erwartet Regelfall, StromUtilmdOderOrders oder Gas"),
    ("tagesbeginn-utc 2026-01-01 Wasser", "SPARTE: erwartet Strom oder Gas, nicht „Wasser“"),
    (
        "frist Morgen",
        "FORM: erwartet WerktagUm, EndeDesWerktags, SelberTagUm oder SelberTag, nicht",
    ),
    ("frist WerktagAt 1", "es fehlt: UHRZEIT"),
    ("check LatestWerktageBefore", "es fehlt: N"),
    ("check WindowWerktageBefore 1", "es fehlt: BIS"),
    ("check LatestMonateUndWerktageBefore", "es fehlt: MONATE"),
    ("span Frist 1 2026-01-01", "FORM: erwartet WerktageVorher, Zeitfenster, WerktageNachher, "),
    ("span", "es fehlt: FORM, also WerktageVorher, Zeitfenster, WerktageNachher, "),
    ("bis-wann Fenster 5 2", "nicht „Fenster“. Meinten Sie Zeitfenster?"),
    ("contrl utilmd", "nicht „utilmd“. Meinten Sie StromUtilmdOderOrders?"),
    ("abmeldung-fuer Z33", "es fehlt: --eeg ja|nein|unbekannt"),
    ("abmeldung --eeg nein 8.1.2026 9.1.2026", "es fehlt: GRUND"),
    ("tag morgn", "nicht „morgn“. Meinten Sie morgen?"),
    ("contrl Regelfall 2.4. 11:00", "Meinten Sie 2.4."),
    ("kalender Dezembr", "nicht „Dezembr“. Meinten Sie Dezember?"),
    ("abmeldung-fuer Z33 --eeg", "erwartet ja, nein oder unbekannt nach --eeg"),
    ("abmeldung-fuer Z33 --eeg vielleicht", "--eeg: erwartet nein, ja oder unbekannt"),
    ("abmeldung-fuer Z33 --eeg ja --eeg ja", "erwartet --eeg nur einmal"),
    (
        "contrl Regelfall @0 --stichtag",
        "erwartet ein Datum wie 2026-04-02 oder 2.4.2026 nach --stichtag",
    ),
    ("contrl Regelfall @0 --stichtag bald", "--stichtag: erwartet ein Datum wie 2026-04-02 oder"),
    ("contrl Regelfall @0 --stichtag=", "--stichtag: erwartet ein Datum wie 2026-04-02 oder 2.4."),
    (
        "contrl Regelfall @0 --stichtag 2026-06-06 --stichtag=2026-06-06",
        "erwartet --stichtag nur einmal",
    ),
    ("contrl Regelfall @0 2026-06-06", "zu viel: „2026-06-06“"),
    ("contrl Regelfall --stichtag 2026-06-06", "es fehlt: EINGANG"),
    (
        "contrl Regelfall @0 --Stichtga 2026-06-06",
        "unbekannte Option „--Stichtga“. Meinten Sie --stichtag?",
    ),
    ("contrl-due-at-change Regelfall @0", "es fehlt: STICHTAG"),
    ("contrl-due-at-change Regelfall @0 6.6.26", "STICHTAG: erwartet ein Datum wie 2026-04-02"),
    (
        "contrl-due-at-change Regelfall @0 2026-06-06 --stichtag 2026-06-06",
        "--stichtag gehört nicht zu diesem Befehl",
    ),
    ("tag 2026-01-01 --stichtag 2026-06-06", "--stichtag gehört nicht zu diesem Befehl"),
    ("aperak-strom @0 --stichtag=2026-06-06", "--stichtag gehört nicht zu diesem Befehl"),
    ("kalender 2026 --stichtag 2026-06-06", "--stichtag gehört nicht zu diesem Befehl"),
    ("fragen - --stichtag 2026-06-06", "--stichtag gehört nicht zu diesem Befehl"),
    ("portfolio - --stichtag 2026-06-06", "--stichtag gehört nicht zu diesem Befehl"),
    (
        "kalender abc",
        "JAHR: erwartet ein Jahr wie 2026 oder einen Monat wie 12.2026 oder Dezember,",
    ),
    ("kalender 12", "oder einen Monat wie 12.2026 oder Dezember, nicht „12“"),
    ("kalender 4294967296", "JAHR: erwartet ein Jahr wie 2026"),
    (
        "kalender 2026 -2026",
        "JAHR: erwartet ein Jahr wie 2026 oder einen Monat wie 12.2026 oder Dezember",
    ),
    ("kalender 2026 --bytes", "--bytes gibt es zu diesem Befehl nicht"),
    ("tag 2026-01-01 --json --bytes", "erwartet nur eines von --json, --bytes und --kurz"),
    ("tag 2026-01-01 --kurz --json", "erwartet nur eines von --json, --bytes und --kurz"),
    ("tag 2026-01-01 --laut", "unbekannte Option „--laut“"),
    ("tag 2026-01-01 --roh", "--roh gibt es zu diesem Befehl nicht"),
    ("kalender 2026 --roh --json", "--roh gibt es zu diesem Befehl nicht"),
    ("portfolio --roh", "--roh gibt es zu diesem Befehl nicht"),
    ("portfolio - --json --bytes", "erwartet nur eines von --json, --bytes und --kurz"),
    ("bis-wann Korridor 1 2026-01-01 --bytes", "--bytes gibt es zu diesem Befehl nicht"),
    ("bis-wann Korridor 1", "es fehlt: TERMIN"),
    ("bis-wann Korridor 1 2026-01-01 2026-01-02", "zu viel: „2026-01-02“"),
    ("tag 2026-01-01 --jsom", "unbekannte Option „--jsom“. Meinten Sie --json?"),
    ("frist SameDayAd 12:00 heute", "nicht „SameDayAd“. Meinten Sie SameDayAt?"),
    ("check Koridor 1", "nicht „Koridor“. Meinten Sie Korridor?"),
    ("check Werktagvorher 1", "nicht „Werktagvorher“. Meinten Sie WerktageVorher?"),
    ("tagesbeginn-utc heute Storm", "nicht „Storm“. Meinten Sie Strom?"),
    ("portfolio a b", "zu viel: „b“"),
];

#[test]
fn bad_usage_says_what_was_expected() {
    for (line, expected) in WRONG {
        let complaint = complaint(&words(line));
        assert!(complaint.starts_with("fristen: ") && complaint.contains(expected), "{complaint}");
        let name = words(line)[0];
        assert!(complaint.contains(&format!("\nAufruf: ./fristen {name} ")), "{complaint}");
    }
}

#[test]
fn a_call_of_no_command() {
    let help = printed(&["--help"], 0);
    assert_eq!(help, printed(&["help"], 0));
    assert_eq!(help, printed(&["-h", "--json"], 0));
    assert_eq!(help, printed(&["Hilfe"], 0));
    assert_eq!(help, printed(&["hilfe", "help"], 0));
    assert_eq!(help, printed(&["--HILFE"], 0));
    assert_eq!(complaint::<&str>(&[]), help);
    let wrong = [
        ("gestern", "unbekannter Befehl „gestern“\n"),
        ("mf_tag 2026-01-01", "unbekannter Befehl „mf_tag“"),
        (
            "add-wertkage 2026-01-01 1",
            "unbekannter Befehl „add-wertkage“. Meinten Sie add-werktage?",
        ),
        ("Prüfe Korridor 1", "unbekannter Befehl „Prüfe“. Meinten Sie pruefen?"),
        ("help kalendar", "unbekannter Befehl „kalendar“. Meinten Sie kalender?\nMehr: "),
        ("hilf tag", "unbekannter Befehl „hilf“. Meinten Sie hilfe?"),
        ("aperak-gas-f", "Meinten Sie aperak-gas?"),
        ("aperak", "Meinten Sie aperak-strom, "),
        ("bis wann", "Meinten Sie bis-wann?"),
        (
            "werktag 8.5.2026",
            "Meinten Sie tag, naechster-werktag, werktage-nach, werktage-vor oder ",
        ),
        ("mf_question -", "unbekannter Befehl „mf_question“"),
        ("help gestern", "unbekannter Befehl „gestern“"),
        ("gestern --help", "unbekannter Befehl „gestern“"),
        ("help tag check", "zu viel: „check“"),
        ("--json", "es fehlt: BEFEHL"),
        ("--", "es fehlt: BEFEHL"),
        ("-- --help", "unbekannter Befehl „--help“"),
    ];
    for (line, expected) in wrong {
        assert!(complaint(&words(line)).contains(expected), "{line}");
    }
    let expected = complaint(&["gestern"]);
    assert!(
        expected.contains("\n  Kalender: tag, naechster-werktag, werktage-nach, "),
        "{expected}"
    );
    assert_eq!(help.matches("mf_").count(), 1, "only the example of a host call's name");
}

/// The second case of every code.
fn question(call: Call, date: Date, instant: Instant) -> Question {
    let reason = Reason::new(b"ZT0").expect("a short reason");
    let question = Question { instant, ..Question::on(call, date) };
    question
        .with_second(Date::new(2026, 1, 12))
        .with_code(1)
        .with_second_code(1)
        .with_count(5)
        .with_second_count(2)
        .with_clock(Clock::new(11, 30, 15, 500_000_000))
        .with_second_instant(Instant::new(1_774_756_800, 0))
        .with_reason(reason)
}

/// The arguments that ask the same.
fn arguments(question: &Question) -> String {
    let shape = |parameter| question.call.takes(parameter);
    let shaped = shape(Parameter::Shape) || shape(Parameter::VorlaufShape);
    let Instant { seconds, nanos } = question.instant;
    let mut words = vec![question.call.name()[3..].replace('_', "-")];
    for parameter in question.call.parameters() {
        let word = match parameter {
            Parameter::Date => question.date.to_string(),
            Parameter::SecondDate => "2026-01-12".to_owned(),
            Parameter::Count | Parameter::SecondCount | Parameter::Clock if shaped => continue,
            Parameter::Count | Parameter::Pid => "5".to_owned(),
            Parameter::SecondCount => "2".to_owned(),
            Parameter::Instant => format!("@{seconds}s{nanos}ns"),
            Parameter::SecondInstant => "2026-03-29T04:00:00Z".to_owned(),
            Parameter::Clock => "11:30:15.5".to_owned(),
            Parameter::Sparte | Parameter::SecondSparte => "Gas".to_owned(),
            Parameter::Shape => "EndOfWerktag 5".to_owned(),
            Parameter::VorlaufShape => "WindowWerktageBefore 5 2".to_owned(),
            Parameter::Eeg => "--eeg ja".to_owned(),
            Parameter::Reason => "ZT0".to_owned(),
            // It stands before the instant here.
            Parameter::Anlass => {
                words.insert(1, "StromUtilmdOderOrders".to_owned());
                continue;
            }
        };
        words.push(word);
    }
    words.join(" ")
}

/// Every call, answered and refused.
#[test]
fn answers_as_bytes() {
    let dates = [Date::new(2026, 1, 10), Date::new(2026, 1, 2), Date::new(1995, 1, 10)];
    let instants = [(1_774_972_799, 7), (1_774_756_800, 0), (1_774_756_800, 1_000_000_000)];
    for call in Call::ALL {
        for (date, (seconds, nanos)) in dates.into_iter().zip(instants) {
            let question = question(call, date, Instant::new(seconds, nanos));
            let mut bytes = [0; Answer::LEN];
            let number = question.ask(&mut bytes);
            let line = arguments(&question) + " --bytes";
            let expected = format!("{:x}\n", Answer::from_bytes(bytes));
            let output = run(&words(&line));
            assert_eq!(String::from_utf8_lossy(&output.stdout), expected, "{line}");
            assert_eq!(output.status.code(), Some(if number == 0 { 0 } else { 2 }), "{line}");
        }
    }
}

/// A reason of these bytes as an argument.
#[cfg(unix)]
fn argument(reason: &[u8]) -> OsString {
    use std::os::unix::ffi::OsStrExt;
    OsStr::from_bytes(reason).to_owned()
}

#[cfg(unix)]
#[test]
fn a_reason_is_bytes_of_any_kind_and_length() {
    let mut long = b"ZQ7".to_vec();
    long.resize(100_000, b'Z');
    let reasons: [&[u8]; 9] =
        [b"", b"ZQ7", b"ZQ7 ", b"\xff\xfe", b"\xdaQ7", b"Z33\n\x1b[31m", b"--json", b"-", &long];
    for reason in reasons {
        let mut answer = [0; Answer::LEN];
        let refusal = ffi::mf_abmeldung_check(reason, 1, 2026, 1, 8, 2026, 1, 12, &mut answer);
        assert_eq!(refusal, 0);
        let mut arguments: Vec<OsString> =
            ["--bytes", "--eeg", "ja", "--", "abmeldung"].map(OsString::from).to_vec();
        arguments.push(argument(reason));
        arguments.extend(["2026-01-08", "2026-01-12"].map(OsString::from));
        let expected = format!("{:x}\n", Answer::from_bytes(answer));
        let output = run(&arguments);
        assert_eq!(String::from_utf8_lossy(&output.stdout), expected, "{reason:?}");
        assert_eq!(output.status.code(), Some(0), "{reason:?}");
    }
}

#[cfg(unix)]
#[test]
fn a_reason_that_is_no_text_is_shown_and_given_in_hex() {
    let mut arguments: Vec<OsString> = vec!["abmeldung-fuer".into(), argument(b"\xff\x01\"Z\xc3")];
    arguments.extend(["--eeg", "nein"].map(OsString::from));
    let sentence = printed(&arguments, 0);
    assert!(sentence.starts_with("Grund „\u{fffd}\\u{1}\"Z\u{fffd}“, keine EEG-"), "{sentence}");
    arguments.push("--json".into());
    let json = printed(&arguments, 0);
    let expected = "\"arguments\":[\"\u{fffd}\\u0001\\\"Z\u{fffd}\",\"--eeg\",\"nein\"],\
                    \"read\":{\"reason_hex\":\"ff01225ac3\",\"eeg\":\"nein\"},\"refusal\":null,\"kind\":0,";
    assert!(json.contains(expected), "{json}");
    let no_text: [OsString; 2] = ["tag".into(), argument(b"2026-01-0\xff")];
    assert!(
        complaint(&no_text).contains("DATUM: erwartet lesbaren Text, nicht „2026-01-0\u{fffd}“")
    );
}

#[test]
fn the_calendar_of_a_year() {
    let sheet = printed(&["kalender", "2008"], 0);
    let lines: Vec<_> = sheet.lines().collect();
    assert_eq!(lines[0], "Kalender 2008 (* kein Werktag)");
    assert_eq!(lines[4], "    1* 2  3  4  5* 6*                1  2* 3*                   1* 2*");
    let both = "\n 1. Mai        Donnerstag  Tag der Arbeit; auch Christi Himmelfahrt\n";
    assert!(sheet.contains(both), "{sheet}");
    assert!(sheet.contains("\n11. Mai        Sonntag     Pfingstsonntag\n"));
    assert!(!sheet.contains('\x1b'));
    assert!(lines.iter().all(|line| line.chars().count() <= 80 && !line.ends_with(' ')));
}

#[test]
fn a_reader_that_goes_away_is_no_failure() {
    for line in ["kalender 2026", "--help", "tag 2026-11-18"] {
        let (reader, writer) = std::io::pipe().expect("a pipe");
        drop(reader);
        let child = program().args(words(line)).stdout(writer).stderr(Stdio::piped()).spawn();
        let output = child.expect("the program runs").wait_with_output().expect("it ends");
        assert_eq!(output.status.code(), Some(0), "{line}");
        assert_eq!(output.stderr, b"", "{line}");
    }
}

#[cfg(target_os = "linux")]
#[test]
fn an_output_that_cannot_be_written_is_a_failure() {
    let full = std::fs::OpenOptions::new().write(true).open("/dev/full").expect("/dev/full");
    let output = program().args(["tag", "2026-11-18"]).stdout(full).output().expect("it runs");
    assert_eq!(output.status.code(), Some(74));
}

/// Numbers of Knuth's MMIX generator.
struct Random(u64);

impl Random {
    fn below(&mut self, n: usize) -> usize {
        self.0 =
            self.0.wrapping_mul(6_364_136_223_846_793_005).wrapping_add(1_442_695_040_888_963_407);
        usize::try_from(self.0 >> 33).unwrap_or_default() % n
    }
}

/// What stands beside an answer: notes, and a refusal in place of its value.
fn assert_beside(output: &Output, short: bool) {
    let beside = String::from_utf8_lossy(&output.stderr);
    let begins = |line: &str| {
        let refusal = short && line.starts_with("fristen: Abgelehnt (");
        refusal || line.starts_with("fristen: Hinweis: ")
    };
    assert!(beside.lines().all(begins), "{beside}");
}

/// Lists of arguments of any kind: an answer, a refusal or a complaint, and never a panic.
#[test]
fn no_arguments_make_it_panic() {
    let mut vocabulary: Vec<String> = source_names().map(|(_, name)| name).collect();
    let others = "\
        tag contrl check check-at span bis-wann frist abmeldung kalender help --json --bytes --kurz \
        --status --roh --help fragen portfolio --eeg --eeg=ja ja nein --stichtag \
        --stichtag=2026-06-06 -- - -1 0 1 2 61 4294967295 4294967296 1995 2026 2899 2900 \
        1996-01-01 2026-02-29 2026-03-29 2899-12-31 9999-99-99 02:30 24:00 12:00:00.5 \
        2026-03-29T02:30:00+02:00 1996-01-01T00:00:00+01:00 2899-12-31T23:59:59+01:00 \
        0000-01-01T00:00:00Z @0 @-9223372036854775808.4294967295 @29348002799.999999999 \
        Strom Gas Regelfall LatestWerktageBefore WindowWerktageBefore Korridor \
        LatestMonateBefore LatestMonateUndWerktageBefore TagVorDemLetztenWerktagVor \
        WerktagAt SameDayAt SameDay EndOfWerktag ZQ7 Z33 ü \u{202e} @ T";
    vocabulary.extend(words(others).into_iter().map(str::to_owned));
    let mut random = Random(20_260_407);
    for _ in 0..1_500 {
        let count = random.below(8);
        let arguments: Vec<&str> =
            (0..count).map(|_| vocabulary[random.below(vocabulary.len())].as_str()).collect();
        let output = run(&arguments);
        match output.status.code() {
            Some(1 | 3) if !arguments.contains(&"--status") => panic!("{arguments:?}"),
            Some(0..=3) => assert_beside(&output, arguments.contains(&"--kurz")),
            Some(64 | 66) => assert!(output.stdout.is_empty(), "{arguments:?}"),
            status => panic!("{arguments:?}: {status:?}"),
        }
    }
}

const DATES: [&str; 6] =
    ["1996-01-01", "2026-03-29", "2026-10-25", "2899-12-30", "2899-12-31", "2900-01-01"];
const COUNTS: [&str; 5] = ["0", "1", "2", "222031", "4294967295"];
const CLOCKS: [&str; 5] = ["00:00", "02:00", "02:59:59.999999999", "23:59:59.999999999", "24:00"];
const SHAPES: [&str; 4] =
    ["LatestWerktageBefore", "LatestWerktageAfter", "EarliestWerktageAfter", "Korridor"];
const INSTANTS: [&str; 9] = [
    "@820450800",
    "@820450799.999999999",
    "@29348002799.999999999",
    "@29348002800",
    "2026-10-25T00:30:00Z",
    "2026-10-25T01:30:00Z",
    "2026-03-29T01:00:00Z",
    "2026-03-30T00:00:00+02:00",
    "2026-03-30T06:00:00+02:00",
];

/// The same with operands that fit, so that the calls themselves are reached.
#[test]
fn no_fitting_operands_make_it_panic() {
    let mut random = Random(7);
    for _ in 0..1_000 {
        let mut pick = |from: &[&'static str]| from[random.below(from.len())];
        let (date, date2, n) = (pick(&DATES), pick(&DATES), pick(&COUNTS));
        let (at, at2, clock) = (pick(&INSTANTS), pick(&INSTANTS), pick(&CLOCKS));
        let shape = pick(&SHAPES);
        let lines = [
            format!("sub-werktage {date} {n}"),
            format!("berlin-at {date} {clock}"),
            format!("nth-werktag-at {at} {n} {clock}"),
            format!("frist SameDayAt {clock} {at}"),
            format!("check {shape} {n} {date} {date2}"),
            format!("check-at {shape} {n} {at} {at2} Strom"),
            format!("check LatestMonateUndWerktageBefore {n} {n} {date} {date2}"),
            format!("span WindowWerktageBefore {n} {n} {date}"),
            format!("ankuendigung {at} {date}"),
            format!("contrl Regelfall {at} --stichtag {date}"),
            format!("contrl-due-at-change GasAlocat {at2} {date2}"),
        ];
        let line = &lines[random.below(lines.len())];
        let output = run(&words(line));
        assert!(matches!(output.status.code(), Some(0 | 2)), "{line}");
        assert_beside(&output, false);
    }
}
