//! `fristen fragen`: the questions of a file.

use super::zeilen::{
    assert_at_once, assert_may_go_away, assert_shows_progress, assert_unread, file, lines, said,
};
use super::{complaint, program, run, words, zeilen, Random, COUNTS, DATES, INSTANTS, SHAPES};
use mako_fristen_host::{
    answer_records, Clock, ContrlAnlass, Date, Frage, Fragesatz, FristShape, Instant, VorlaufShape,
};
use std::process::Output;
use std::time::{Duration, Instant as Now};

const CHECK: &str = "check LatestWerktageBefore 1 2026-01-10 2026-01-12";
const SPAN: &str = "span LatestWerktageBefore 1 2026-01-10";
const REFUSED: &str = "span LatestWerktageBefore 1 2899-12-31";
const SPANNED: &str =
    "Übertragungstag Samstag, 10. Januar 2026: Zulässig sind Termine ab Dienstag, dem 13. Januar \
     2026. Spätester Übertragungstag ist der 1. Werktag vor dem Termin.";

/// Every operation and shape, answered and refused, by each name of a command.
pub const MIXED: &[&str] = &[
    "contrl Regelfall 2026-03-31T12:00:00+02:00",
    "contrl-due-at GasAlocat @1774951199.7",
    "mf_contrl_due_at stromutilmdoderorders 1995-01-01T00:00:00Z",
    "contrl GasAlocat 2026-10-25T02:30",
    "frist WerktagAt 2 06:00:30 2026-04-02T10:00:00+02:00",
    "frist WerktagAt 2 24:00 2026-04-02T10:00:00+02:00",
    "frist WerktagAt 2 00:00:60 2026-04-02T10:00:00+02:00",
    "frist WerktagAt 2 12:00:00.5 2026-04-02T10:00:00+02:00",
    "frist_due_at EndOfWerktag 3 2026-04-02T10:00:00+02:00",
    "frist SameDayAt 12:00 2026-01-09T12:00:00+01:00",
    "frist SameDayAt 02:30 2026-03-29T12:00:00Z",
    "mf_frist_due_at SameDay 2026-01-10T12:00:00+01:00",
    CHECK,
    "check WindowWerktageBefore 5 2 2026-04-13 2026-04-24",
    "check WindowWerktageBefore 3 1 2899-12-28 2899-12-28",
    "check Korridor 0 2026-01-10 2026-01-11",
    "vorlauf_check TagVorDemLetztenWerktagVor 2026-01-08 2026-01-10",
    "check LatestMonateUndWerktageBefore 2 1 2026-01-05 2026-02-29",
    "check LatestMonateBefore 1 2026-01-31 2026-02-28",
    SPAN,
    REFUSED,
    "mf_vorlauf_span EarliestWerktageAfter 3 2026-04-02",
    "span LatestWerktageAfter 3 2026-04-02",
    "span WindowWerktageBefore 1 1 2026-01-10",
    "span LatestMonateBefore 4294967295 2026-01-01",
];

/// `fragen` with these arguments, fed with these bytes.
fn fed(arguments: &[&str], input: &[u8]) -> Output {
    zeilen::fed("fragen", arguments, input)
}

/// The lines that it prints with this status, complaining of nothing.
fn answers(arguments: &[&str], input: impl AsRef<[u8]>, status: i32) -> Vec<String> {
    let output = fed(arguments, input.as_ref());
    assert_eq!(String::from_utf8_lossy(&output.stderr), "");
    assert_eq!(output.status.code(), Some(status));
    lines(&output)
}

/// What the single command prints, as `fragen` prints it for this line.
fn single(line: &str, number: usize, form: &[&str]) -> String {
    let output = run(&[&words(line), form].concat());
    let text = String::from_utf8(output.stdout).expect("UTF-8");
    let text = text.trim_end().replace('\n', " ");
    match form {
        ["--json"] => format!("{{\"line\":{number},{}", &text[1..]),
        ["--bytes"] => format!("{number}: {text}"),
        _ => format!("Zeile {number}: {text}"),
    }
}

#[test]
fn a_file_in_each_form() {
    let input = format!("# Montag\n\n{SPAN}\n{REFUSED}\n{CHECK}\n");
    let no_end =
        "Der erste zulässige Termin liegt hinter dem 31. Dezember 2899, dem letzten Tag des \
                  Kalenders.";
    let late =
        "1 Kalendertag zu spät: Übertragungstag Samstag, 10. Januar 2026, Termin Montag, 12. \
         Januar 2026. Zulässig sind Termine ab Dienstag, dem 13. Januar 2026. Spätester \
         Übertragungstag ist der 1. Werktag vor dem Termin: Freitag, der 9. Januar 2026. Zu spät \
         ist es um 1 Tag, der kein Werktag ist. Die Quelle mako-fristen nennt als frühesten Termin \
         Montag, den 12. Januar 2026; zulässig ist er nicht.";
    let sentences = [
        format!("Zeile 3: {SPANNED}"),
        format!("Zeile 4: Abgelehnt (8): {no_end}"),
        format!("Zeile 5: {late}"),
    ];
    assert_eq!(answers(&[], &input, 2), sentences);
    let json = [
        concat!(
            r#"{"line":3,"version":1,"call":"mf_vorlauf_span","arguments":["LatestWerktageBefore","1","#,
            r#""2026-01-10"],"read":{"shape":"LatestWerktageBefore","count":1,"count2":null,"#,
            r#""date":"2026-01-10"},"refusal":null,"kind":0,"kind_name":"From","#,
            r#""span":{"empty":false,"first":"2026-01-13","last":null}}"#,
        ),
        &format!(
            "{{\"line\":4,\"version\":1,\"call\":\"mf_vorlauf_span\",\"arguments\":\
             [\"LatestWerktageBefore\",\"1\",\"2899-12-31\"],\"read\":{{\"shape\":\
             \"LatestWerktageBefore\",\"count\":1,\"count2\":null,\"date\":\"2899-12-31\"}},\
             \"refusal\":{{\"number\":8,\"text\":\"{no_end}\"}},\"kind\":null,\"kind_name\":null,\
             \"span\":null}}"
        ),
        concat!(
            r#"{"line":5,"version":1,"call":"mf_vorlauf_check","arguments":["LatestWerktageBefore","#,
            r#""1","2026-01-10","2026-01-12"],"read":{"shape":"LatestWerktageBefore","count":1,"#,
            r#""count2":null,"date":"2026-01-10","date2":"2026-01-12"},"refusal":null,"kind":1,"#,
            r#""kind_name":"TooLate","in_time":false,"count":0,"margin":-1,"date":"2026-01-12","#,
            r#""date_acceptable":false,"transmission_day":"2026-01-10","anchor":"2026-01-12","#,
            r#""span":{"empty":false,"first":"2026-01-13","last":null},"#,
            r#""transmission_span":{"empty":false,"first":null,"last":"2026-01-09"}}"#,
        ),
    ];
    assert_eq!(answers(&["--json"], &input, 2), json);
    let bytes = [
        "3: 0000000000000000000000000000000000000000ea07010d0000000000000000",
        "4: 0800000000000000000000000000000000000000000000000000000000000000",
        "5: 0001000000000000000000000000000000000000ea07010c00000000ffffffff",
    ];
    assert_eq!(answers(&["--bytes"], &input, 2), bytes);
}

#[test]
fn each_line_is_answered_as_its_command_is() {
    let input = MIXED.join("\n");
    let path = file("gemischt.txt", &input);
    let path = path.to_str().expect("UTF-8");
    for form in [&[][..], &["--json"], &["--bytes"]] {
        let numbered = MIXED.iter().enumerate();
        let expected: Vec<_> =
            numbered.map(|(place, line)| single(line, place + 1, form)).collect();
        assert_eq!(answers(form, &input, 2), expected);
        assert_eq!(answers(&[form, &["-"]].concat(), &input, 2), expected);
        assert_eq!(answers(&[&[path], form].concat(), "", 2), expected);
    }
}

#[test]
fn blanks_comments_and_the_ends_of_lines() {
    let spanned = |number: usize| format!("Zeile {number}: {SPANNED}");
    let tabs = "\t span\t LatestWerktageBefore  1\t2026-01-10 \t";
    let inputs = [
        (format!("\u{feff}{SPAN}"), vec![1]),
        (format!("\u{feff}# {SPAN}\n{SPAN}\n"), vec![2]),
        (format!("{SPAN}\r\n\r\n \t\r\n  # Kommentar\r\n{tabs}\r\n#\r\n{SPAN}\r\n"), vec![1, 5, 7]),
        (format!("\n\n{SPAN}\n\n{SPAN}"), vec![3, 5]),
        (format!("{tabs}\r"), vec![1]),
    ];
    for (input, numbers) in inputs {
        let expected: Vec<_> = numbers.into_iter().map(spanned).collect();
        assert_eq!(answers(&[], &input, 0), expected, "{input:?}");
    }
    let latin_1 = [b"# Eing\xe4nge\n", SPAN.as_bytes()].concat();
    assert_eq!(answers(&[], latin_1, 0), [spanned(2)], "a comment need not be UTF-8");
}

#[test]
fn nothing_asked_is_nothing_answered() {
    for input in ["", "\n", "\r\n \n\t\n", "# nichts", "\u{feff}", "\u{feff}\r\n"] {
        assert!(answers(&[], input, 0).is_empty(), "{input:?}");
    }
    assert!(answers(&["--roh"], "", 0).is_empty());
}

#[test]
fn lines_that_cannot_be_read_are_named_and_the_others_answered() {
    let cases: [(&[u8], &str); 13] = [
        (b"gestern", "erwartet contrl, frist, pruefen oder spanne, nicht „gestern“"),
        (b"tag 2026-01-01", "tag gibt es in einer Datei nicht; erwartet contrl, frist, pruefen oder spanne"),
        (
            b"spna Korridor 1 2026-01-01",
            "erwartet contrl, frist, pruefen oder spanne, nicht „spna“. Meinten Sie span?",
        ),
        (
            b"span Koridor 1 2026-01-01",
            "FORM: erwartet WerktageVorher, Zeitfenster, WerktageNachher, TerminNachWerktagen, \
             Korridor, TagVorLetztemWerktag, MonateVorher oder MonateUndWerktageVorher, nicht \
             „Koridor“. Meinten Sie Korridor? (Aufbau: span FORM [ZAHLEN] ÜBERTRAGUNGSTAG)",
        ),
        (b"--json", "erwartet contrl, frist, pruefen oder spanne, nicht „--json“"),
        (b"span", "es fehlt: FORM, also WerktageVorher, Zeitfenster, WerktageNachher, \
             TerminNachWerktagen, Korridor, TagVorLetztemWerktag, MonateVorher oder \
             MonateUndWerktageVorher (Aufbau: span FORM [ZAHLEN] ÜBERTRAGUNGSTAG)"),
        (
            b"contrl Fall @0",
            "ANLASS: erwartet Regelfall, StromUtilmdOderOrders oder GasAlocat, nicht „Fall“. Meinten \
             Sie Regelfall? (Aufbau: contrl ANLASS EINGANG)",
        ),
        (
            b"frist SameDay @0 --json",
            "Optionen gibt es in einer Zeile nicht: „--json“ (Aufbau: frist FORM [N] [UHRZEIT] \
             EINGANG)",
        ),
        (
            b"contrl Regelfall @0 --stichtag 2026-06-06",
            "Optionen gibt es in einer Zeile nicht: „--stichtag“ (Aufbau: contrl ANLASS EINGANG)",
        ),
        (
            b"contrl-due-at-change Regelfall @0 2026-06-06",
            "contrl-due-at-change gibt es in einer Datei nicht; erwartet contrl, frist, pruefen oder \
             spanne",
        ),
        (
            b"check Korridor -1 2026-01-01 2026-01-01",
            "N: erwartet eine Zahl wie 5, nicht „-1“ (Aufbau: check FORM [ZAHLEN] \
             ÜBERTRAGUNGSTAG TERMIN)",
        ),
        (b"span Korridor 1 2026-01-01 2", "zu viel: „2“ (Aufbau: span FORM [ZAHLEN] ÜBERTRAGUNGSTAG)"),
        (b"span \xff\x1b[31m", "erwartet Text in UTF-8, nicht „span \u{fffd}\\u{1b}[31m“"),
    ];
    for (line, expected) in cases {
        let input = [SPAN.as_bytes(), b"\n", line, b"\n", SPAN.as_bytes()].concat();
        let output = fed(&[], &input);
        assert_eq!(output.status.code(), Some(64));
        assert_eq!(lines(&output), [format!("Zeile 1: {SPANNED}"), format!("Zeile 3: {SPANNED}")]);
        let complaint = format!(
            "fristen: Zeile 2: {expected}\n\
             fristen: 1 Zeile ließ sich nicht lesen. Mehr: ./fristen fragen --help\n"
        );
        assert_eq!(String::from_utf8_lossy(&output.stderr), complaint);
    }
}

/// In a terminal both outputs are one.
#[test]
fn a_complaint_stands_between_the_answers() {
    let path = file("dazwischen.txt", format!("{SPAN}\ngestern\n{SPAN}\nheute\n"));
    let expected = "erwartet contrl, frist, pruefen oder spanne, nicht";
    let expected = format!(
        "Zeile 1: {SPANNED}\n\
         fristen: Zeile 2: {expected} „gestern“\n\
         Zeile 3: {SPANNED}\n\
         fristen: Zeile 4: {expected} „heute“\n\
         fristen: 2 Zeilen ließen sich nicht lesen. Mehr: ./fristen fragen --help\n"
    );
    assert_eq!(said("fragen", &path), (expected, Some(64)));
}

/// A line that cannot be read goes before a refusal, and that before an answer.
#[test]
fn the_status_is_that_of_the_worst_line() {
    let wrong = "gestern";
    let cases: [(&[&str], i32); 7] = [
        (&[SPAN, SPAN], 0),
        (&[REFUSED, SPAN], 2),
        (&[SPAN, REFUSED], 2),
        (&[wrong, SPAN], 64),
        (&[wrong, REFUSED], 64),
        (&[REFUSED, wrong, SPAN], 64),
        (&[wrong, wrong], 64),
    ];
    for (questions, status) in cases {
        for form in [&[][..], &["--json"], &["--bytes"]] {
            let output = fed(form, questions.join("\n").as_bytes());
            assert_eq!(output.status.code(), Some(status), "{questions:?}");
            let unread = questions.iter().filter(|line| **line == wrong).count();
            assert_eq!(lines(&output).len(), questions.len() - unread);
            let complaints = String::from_utf8_lossy(&output.stderr);
            let last = usize::from(unread > 0);
            assert_eq!(complaints.lines().count(), unread + last, "{complaints}");
        }
    }
}

#[test]
fn a_very_long_line() {
    let zeros = format!("span Korridor {}2 2026-04-07", "0".repeat(60_000));
    let comment = format!("# {}", "ä".repeat(1_000_000));
    let long = format!("span {}", "x".repeat(5_000_000));
    let word = format!("span {}", "x".repeat(50_000));
    let input = [zeros.as_str(), &comment, &long, &word, SPAN].join("\n");
    let output = fed(&[], input.as_bytes());
    assert_eq!(output.status.code(), Some(64));
    let answered = lines(&output);
    assert_eq!(answered[0], single("span Korridor 2 2026-04-07", 1, &[]));
    assert_eq!(answered[1..], [format!("Zeile 5: {SPANNED}")]);
    let complaints = String::from_utf8_lossy(&output.stderr);
    assert!(complaints.starts_with("fristen: Zeile 3: erwartet weniger als 65536 Bytes\n"));
    let quoted = format!(", nicht „{}…“ (Aufbau: span ", "x".repeat(80));
    assert!(complaints.contains(&quoted), "{complaints}");
}

/// Records beside the lines that ask the same.
fn records() -> (Vec<u8>, String) {
    let received = Instant::new(1_774_951_199, 7);
    let noon = Clock::new(12, 0, 0, 0);
    let (monday, saturday) = (Date::new(2026, 1, 12), Date::new(2026, 1, 10));
    let window = VorlaufShape::WindowWerktageBefore { earliest: 5, latest: 2 };
    let no_clock = FristShape::SameDayAt(Clock::new(24, 0, 0, 0));
    let check = |shape, anchor| Frage::Check { shape, uebertragungstag: saturday, anchor };
    let span = |shape, uebertragungstag| Frage::Span { shape, uebertragungstag };
    let asked = [
        (
            Frage::Contrl { received, anlass: ContrlAnlass::GasAlocat },
            "contrl GasAlocat @1774951199s7ns",
        ),
        (
            Frage::Frist { shape: FristShape::WerktagAt { werktage: 2, at: noon }, received },
            "frist WerktagAt 2 12:00 @1774951199s7ns",
        ),
        (Frage::Frist { shape: no_clock, received }, "frist SameDayAt 24:00 @1774951199s7ns"),
        (
            check(VorlaufShape::LatestWerktageBefore(1), monday),
            "check LatestWerktageBefore 1 2026-01-10 2026-01-12",
        ),
        (check(window, monday), "check WindowWerktageBefore 5 2 2026-01-10 2026-01-12"),
        (
            check(VorlaufShape::Korridor(3), Date::new(2026, 2, 30)),
            "check Korridor 3 2026-01-10 2026-02-30",
        ),
        (span(window, monday), "span WindowWerktageBefore 5 2 2026-01-12"),
        (
            span(VorlaufShape::LatestMonateBefore(1), Date::LAST),
            "span LatestMonateBefore 1 2899-12-31",
        ),
    ];
    let record = |frage: &Frage| *frage.fragesatz().expect("whole seconds").as_bytes();
    let bytes = asked.iter().flat_map(|(frage, _)| record(frage)).collect();
    (bytes, asked.map(|(_, line)| line).join("\n"))
}

fn hex(bytes: &[u8]) -> String {
    bytes.iter().map(|byte| format!("{byte:02x}")).collect()
}

#[test]
fn records_are_answered_as_the_lines_that_ask_the_same() {
    let (records, questions) = records();
    let path = file("fragen.bin", &records);
    let answered = fed(&["--roh"], &records);
    assert_eq!((answered.status.code(), answered.stderr.as_slice()), (Some(2), &b""[..]));
    let numbered = answered.stdout.chunks(Fragesatz::LEN).zip(1..);
    let numbered: Vec<_> = numbered.map(|(bytes, n)| format!("{n}: {}", hex(bytes))).collect();
    assert_eq!(answers(&["--bytes"], questions, 2), numbered);
    let path = path.to_str().expect("UTF-8");
    assert_eq!(fed(&[path, "--roh"], b"").stdout, answered.stdout);
    let first = fed(&["--roh"], &records[..Fragesatz::LEN]);
    assert_eq!(first.status.code(), Some(0), "nothing is refused");
    assert_eq!(first.stdout, answered.stdout[..Fragesatz::LEN]);
}

/// A record of any bytes, or one that asks something about some day.
fn record(random: &mut Random) -> [u8; Fragesatz::LEN] {
    if random.below(9) == 0 {
        return std::array::from_fn(|_| random.below(256) as u8);
    }
    let mut below = |n| random.below(n) as u32;
    let (operation, code) = (below(5) as u8, below(9) as u8);
    // Of a due shape the seconds of a clock.
    let (count, second_count) = (below(99), below(if operation == 1 { 99_999 } else { 99 }));
    let year = 1995 + below(906) as u16;
    let mut date = || Date::new(year, 1 + below(12) as u8, 1 + below(30) as u8);
    let (date, anchor) = (date(), date());
    let received = Instant::new(i64::from(below(30_000_000)) * 1_000, below(9));
    let record = Fragesatz::default().with_operation(operation).with_code(code);
    let record = record.with_count(count).with_second_count(second_count);
    *record.with_date(date).with_anchor(anchor).with_instant(received).as_bytes()
}

/// Files of more than one call's 65,536 bytes too.
#[test]
fn records_of_any_bytes_and_number() {
    let mut random = Random(9);
    for count in [1, 2, 127, 128, 129, 2_048, 2_049, 10_000] {
        let records: Vec<u8> = (0..count).flat_map(|_| record(&mut random)).collect();
        let output = fed(&["--roh"], &records);
        let expected = answer_records(&records).expect("a multiple of 32");
        assert!(output.stdout == expected, "{count}");
        let refused = expected.chunks(Fragesatz::LEN).any(|answer| answer[0] != 0);
        assert_eq!(output.status.code(), Some(if refused { 2 } else { 0 }));
        assert_eq!(output.stderr, b"");
    }
}

#[test]
fn records_of_a_wrong_length_are_refused_as_a_whole() {
    let (mut records, _) = records();
    records.resize(70_000, 0);
    for len in [1, 31, 33, 63, 65, 65_535, 65_537, 70_000] {
        let output = fed(&["--roh"], &records[..len]);
        assert_eq!((output.status.code(), output.stdout.as_slice()), (Some(2), &b""[..]), "{len}");
        let bytes = if len == 1 { "1 Byte ist".to_owned() } else { format!("{len} Bytes sind") };
        let complaint = format!("fristen: Abgelehnt (9): {bytes} kein Vielfaches von 32.\n");
        assert_eq!(String::from_utf8_lossy(&output.stderr), complaint);
    }
}

#[test]
fn more_lines_than_a_file_of_records_has() {
    for count in [2_047, 2_048, 2_049, 5_000] {
        let input: String = (0..count).map(|place| format!("{}\n", MIXED[place % 24])).collect();
        let of_each: Vec<_> = MIXED.iter().map(|line| single(line, 0, &["--bytes"])).collect();
        let expected: Vec<_> =
            (0..count).map(|place| format!("{}{}", place + 1, &of_each[place % 24][1..])).collect();
        assert!(answers(&["--bytes"], input, 2) == expected, "{count}");
    }
}

#[test]
fn input_in_pieces() {
    let pieces =
        ["\u{feff}# Erst\r\nspan LatestWerk", "tageBefore 1 ", "2026-01-10\r\nspan Latest"];
    let (first, second) = (format!("Zeile 2: {SPANNED}\n"), format!("Zeile 3: {SPANNED}\n"));
    assert_at_once("fragen", pieces, &first, "WerktageBefore 1 2026-01-10", &second);
}

#[test]
fn a_file_that_cannot_be_read() {
    assert_unread("fragen", &[&[], &["--json"], &["--roh"]]);
}

#[test]
fn a_long_file_shows_how_far_it_has_come() {
    assert_shows_progress("fragen", "span Korridor 1 2026-01-12", "Fragen beantwortet");
}

/// A name that would be an option, and one of a file that `-` does not mean.
#[test]
fn a_file_of_an_unlikely_name() {
    for name in ["-", "--json", "-1", "ä b"] {
        file(name, SPAN);
        let mut command = program();
        command.current_dir(env!("CARGO_TARGET_TMPDIR")).arg("fragen");
        let command = match name {
            "-" => command.arg("./-"),
            _ => command.args(["--", name]),
        };
        let output = command.output().expect("the program runs");
        assert_eq!(lines(&output), [format!("Zeile 1: {SPANNED}")], "{name}");
    }
}

#[test]
fn bad_usage() {
    for (arguments, expected) in [
        (&["a", "b"][..], "zu viel: „b“"),
        (&["--roh", "--json"], "erwartet --roh ohne --json, --kurz, --bytes und --status"),
        (&["--bytes", "--roh", "-"], "erwartet --roh ohne --json, --kurz, --bytes und --status"),
        (&["--status", "--roh"], "erwartet --roh ohne --json, --kurz, --bytes und --status"),
        (&["--json", "--bytes"], "erwartet nur eines von --json, --bytes und --kurz"),
        (&["--eeg", "ja"], "--eeg gehört nicht zu diesem Befehl"),
    ] {
        let complaint = complaint(&[&["fragen"], arguments].concat());
        assert!(complaint.starts_with(&format!("fristen: {expected}\n")), "{complaint}");
        assert!(complaint.contains("\nAufruf: ./fristen fragen [DATEI] [--roh]\n"), "{complaint}");
    }
}

#[test]
fn a_reader_that_goes_away_has_read_enough() {
    let path = file("viele.txt", format!("{SPAN}\n").repeat(200_000));
    assert_may_go_away("fragen", &path, b"Zeile 1: ", 0);
    let path = file("viele-abgelehnt.txt", format!("{REFUSED}\n{SPAN}\n").repeat(100_000));
    assert_may_go_away("fragen", &path, b"Zeile 1: ", 2);
}

#[cfg(target_os = "linux")]
#[test]
fn an_output_that_cannot_be_written_is_a_failure() {
    let path = file("wenige.txt", format!("{SPAN}\ngestern\n{SPAN}\n"));
    zeilen::assert_unwritten("fragen", &path, 2);
}

/// In seconds, also where nothing is optimised and other tests run beside it.
#[test]
fn a_hundred_thousand_lines() {
    let count = 100_000;
    let input: String = (0..count).map(|place| format!("{}\n", MIXED[place % 24])).collect();
    let path = file("hunderttausend.txt", input);
    let started = Now::now();
    let output = program().arg("fragen").arg(path).output().expect("it runs");
    assert!(started.elapsed() < Duration::from_secs(120), "{:?}", started.elapsed());
    assert_eq!((output.status.code(), output.stderr.as_slice()), (Some(2), &b""[..]));
    let answered = lines(&output);
    assert_eq!(answered.len(), count);
    assert_eq!(answered[99_999], single(MIXED[99_999 % 24], count, &[]));
}

/// A line of words that a line may have.
fn any_words(random: &mut Random) -> String {
    let mut pick = |from: &[&'static str]| from[random.below(from.len())];
    let (date, date2, n) = (pick(&DATES), pick(&DATES), pick(&COUNTS));
    let (shape, at) = (pick(&SHAPES), pick(&INSTANTS));
    let others = "contrl frist check span mf_vorlauf_span tag # -- --json - @0 Regelfall SameDay \
                  SameDayAt 24:00 02:30 12:00:00.5 TagVorDemLetztenWerktagVor \u{202e} \u{a0}";
    let vocabulary = [&words(others)[..], &[date, at, shape, n]].concat();
    match random.below(5) {
        0 => format!("check {shape} {n} {date} {date2}"),
        1 => format!("span {shape} {n} {date}"),
        2 => format!("frist SameDayAt 02:30 {at}"),
        3 => String::new(),
        _ => {
            let count = random.below(6);
            let word = |_| vocabulary[random.below(vocabulary.len())];
            (0..count).map(word).collect::<Vec<_>>().join(" ")
        }
    }
}

/// Lines of any kind: each has its answer or its complaint, in the order of the lines.
#[test]
fn no_lines_make_it_panic() {
    let mut random = Random(20_260_112);
    let mut input = Vec::new();
    for _ in 0..5_000 {
        input.extend(any_words(&mut random).into_bytes());
        let odd = if random.below(4) == 0 { random.below(9) } else { 0 };
        input.extend((0..odd).map(|_| random.below(256) as u8));
        input.push(b'\n');
    }
    let output = fed(&["--bytes"], &input);
    assert_eq!(output.status.code(), Some(64));
    let numbers = |lines: &str, before: &str| -> Vec<usize> {
        let number = |line: &str| line.strip_prefix(before)?.split(':').next()?.parse().ok();
        lines.lines().filter(|line| !line.contains(": Hinweis: ")).filter_map(number).collect()
    };
    let answered = numbers(&lines(&output).join("\n"), "");
    let unread = numbers(&String::from_utf8_lossy(&output.stderr), "fristen: Zeile ");
    assert!(answered.len() > 1_000 && unread.len() > 1_000);
    assert!(answered.is_sorted() && unread.is_sorted());
    let mut both = [answered, unread].concat();
    both.sort_unstable();
    let asks = |line: &[u8]| {
        let line = line.strip_suffix(b"\r").unwrap_or(line);
        line.iter().find(|byte| !matches!(byte, b' ' | b'\t')).is_some_and(|first| *first != b'#')
    };
    let asked = input.split(|byte| *byte == b'\n').zip(1..).filter(|(line, _)| asks(line));
    assert_eq!(both, asked.map(|(_, number)| number).collect::<Vec<usize>>());
}

/// What the README points to.
#[test]
fn the_file_of_the_documents_is_answered() {
    let file = concat!(env!("CARGO_MANIFEST_DIR"), "/../docs/fragen.txt");
    let given = answers(&[file], "", 2);
    let marks: Vec<_> =
        given.iter().map(|line| line.split_once(": ").map(|(mark, _)| mark)).collect();
    assert_eq!(marks, ["Zeile 2", "Zeile 3", "Zeile 4", "Zeile 7", "Zeile 8"].map(Some));
    assert!(given[4].starts_with("Zeile 8: Abgelehnt (3): "), "{}", given[4]);
}

/// The only place of a refusal, where a value is asked for.
#[cfg(target_os = "linux")]
#[test]
fn a_refusal_that_cannot_be_said_is_a_failure() {
    for (command, form, line) in [
        ("fragen", "--kurz", "span Korridor 1 2026-02-30"),
        ("portfolio", "--json", "2026-02-30;2026-03-01"),
        ("mf_questions", "--json", "gestern"),
    ] {
        let path = file("ungesagt.txt", line);
        let full = std::fs::OpenOptions::new().write(true).open("/dev/full").expect("/dev/full");
        let status = program().args([command, form]).arg(&path).stderr(full).status();
        assert_eq!(status.expect("it runs").code(), Some(74), "{command}");
    }
}
