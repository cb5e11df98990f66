//! `fristen portfolio`: the pairs of dates of a file.

use super::zeilen::{
    assert_at_once, assert_may_go_away, assert_shows_progress, assert_unread, complaints, file,
    lines, said,
};
use super::{complaint, program, zeilen, Random, DATES};
use mako_fristen_host::{werktage_between, Date};
use std::fs;
use std::process::Output;
use std::time::{Duration, Instant};

const ONE_UNREAD: &str =
    "fristen: 1 Zeile ließ sich nicht lesen. Mehr: ./fristen portfolio --help\n";

/// `portfolio` with these arguments, fed with these bytes.
fn fed(arguments: &[&str], input: impl AsRef<[u8]>) -> Output {
    zeilen::fed("portfolio", arguments, input.as_ref())
}

/// The lines that it prints, complaining of nothing.
fn counts(arguments: &[&str], input: impl AsRef<[u8]>) -> Vec<String> {
    let output = fed(arguments, input);
    assert_eq!(String::from_utf8_lossy(&output.stderr), "");
    assert_eq!(output.status.code(), Some(0));
    lines(&output)
}

/// Over Easter, over Christmas, ten years, backwards, and a day.
const CONTRACTS: [(&str, &str, u32); 5] = [
    ("2026-04-02", "2026-04-07", 1),
    ("2025-12-23", "2026-01-07", 5),
    ("2025-06-30", "2035-06-30", 2_457),
    ("2026-04-07", "2026-04-02", 0),
    ("2026-04-07", "2026-04-07", 0),
];

#[test]
fn one_count_a_line_whatever_parts_the_dates() {
    let expected = CONTRACTS.map(|(.., count)| count.to_string());
    for between in [" ", "\t", ",", ";", " ; ", "\t\t", ", "] {
        for quote in ["", "\""] {
            for end in ["\n", "\r\n"] {
                let line =
                    |(from, to, _)| format!("{quote}{from}{quote}{between}{quote}{to}{quote}{end}");
                let input = CONTRACTS.map(line).concat();
                assert_eq!(counts(&[], &input), expected, "{input:?}");
                assert_eq!(counts(&["-"], format!("\u{feff}{}", input.trim_end())), expected);
                let path = file("vertraege.csv", &input);
                let path = path.to_str().expect("UTF-8");
                assert_eq!(counts(&[path], ""), expected);
            }
        }
    }
}

/// The entry of the third list, little-endian.
#[test]
fn a_count_as_bytes() {
    let input = CONTRACTS.map(|(from, to, _)| format!("{from};{to}\n")).concat();
    let expected = ["01000000", "05000000", "99090000", "00000000", "00000000"];
    assert_eq!(counts(&["--bytes"], &input), expected);
    let output = fed(&["--bytes"], "VON;BIS\n2026-02-29;2026-04-07\nx 1\n");
    assert_eq!(output.status.code(), Some(64));
    assert_eq!(lines(&output), ["", "ffffffff", ""]);
}

/// Each line of the input has a line of the output.
#[test]
fn a_line_without_dates_keeps_its_place() {
    let inputs: [(&str, &[&str]); 10] = [
        ("", &[]),
        ("\n", &[""]),
        ("\u{feff}", &[""]),
        (" \t\r\n\n", &["", ""]),
        ("Beginn;Ende\n2026-04-02;2026-04-07\n", &["", "1"]),
        ("\u{feff}Beginn;Ende\r\n2026-04-02;2026-04-07", &["", "1"]),
        ("# Verträge 2026\n\nVON,BIS\n2026-04-02,2026-04-07\n", &["", "", "", "1"]),
        ("2026-04-02 2026-04-07\n\n# x\n2026-04-02 2026-04-07\n", &["1", "", "", "1"]),
        ("2026-04-02;2026-04-07;;\n", &["1"]),
        ("\"Gültig ab\";\"Gültig bis\"\n", &[""]),
    ];
    for (input, expected) in inputs {
        assert_eq!(counts(&[], input), expected, "{input:?}");
        assert_eq!(counts(&["--json"], input).len(), expected.len(), "{input:?}");
    }
}

/// From a day to itself it is 0.
#[test]
fn dates_in_words_are_no_heading() {
    assert_eq!(counts(&[], "heute;heute\n2026-04-02;2026-04-07\n"), ["0", "1"]);
    assert_eq!(counts(&["--bytes"], "# VON BIS\nmorgen\tMorgen\n"), ["", "00000000"]);
}

#[test]
fn a_line_that_cannot_be_read_is_named_and_keeps_its_place() {
    let expected = "erwartet ein Datum wie 2026-04-02 oder 2.4.2026, nicht";
    let no_date = |label, text: &str| format!("{label}: {expected} „{text}“");
    let cases: [(&[u8], String); 9] = [
        (b"morgens", no_date("VON", "morgens") + ". Meinten Sie morgen?"),
        (b"Beginn;Ende", no_date("VON", "Beginn")),
        (b"30.06.2025;30.06.35", no_date("BIS", "30.06.35") + ". Meinten Sie 30.6.2035?"),
        (b"2025-06-30;offen", no_date("BIS", "offen")),
        (b"2025-06-30;", "es fehlt: BIS".to_owned()),
        (b";2025-06-30", "es fehlt: VON".to_owned()),
        (b"2025-06-30;2035-06-30;Gas", "zu viel: „Gas“".to_owned()),
        (b"\x1b[31m", no_date("VON", "\\u{1b}[31m")),
        (b"\xff 2025-06-30", "erwartet Text in UTF-8, nicht „\u{fffd} 2025-06-30“".to_owned()),
    ];
    let good = &b"2026-04-02;2026-04-07"[..];
    for (line, expected) in cases {
        let input = [good, b"\n", line, b"\n", good].concat();
        let named = format!("fristen: Zeile 2: {expected}\n{ONE_UNREAD}");
        let output = fed(&[], &input);
        assert_eq!((output.status.code(), complaints(&output)), (Some(64), named.clone()));
        assert_eq!(lines(&output), ["1", "", "1"]);
        let output = fed(&["--json"], &input);
        assert_eq!((output.status.code(), complaints(&output)), (Some(64), named));
        let text = expected.replace('\\', "\\\\");
        let error = format!("\"{text}\"");
        assert_eq!(lines(&output)[1], object(2, ["null"; 2], ["null", &error, "null"]));
    }
}

#[test]
fn a_date_that_is_none_of_the_calendar_is_named_and_keeps_its_place() {
    let rows = [
        ("2026-02-29", "2026-04-07", "VON 2026-02-29: der Februar 2026 hat 28 Tage."),
        ("2026-04-02", "2900-01-01", "BIS 2900-01-01: der Kalender endet am 31. Dezember 2899."),
        (
            "1995-12-31",
            "2026-04-31",
            "VON 1995-12-31: der Kalender beginnt am 1. Januar 1996; BIS 2026-04-31: der April 2026 \
             hat 30 Tage.",
        ),
        (
            "9999-99-99",
            "0000-00-00",
            "VON 9999-99-99: einen 99. Monat gibt es nicht; BIS 0000-00-00: einen 0. Monat gibt es \
             nicht.",
        ),
    ];
    for (from, to, named) in rows {
        let input = format!("2026-04-02,2026-04-07\n{from},{to}\n2026-04-02,2026-04-07\n");
        let complaint = format!("fristen: Zeile 2: Abgelehnt (3): {named}\n");
        let output = fed(&[], &input);
        assert_eq!((output.status.code(), complaints(&output)), (Some(2), complaint.clone()));
        assert_eq!(lines(&output), ["1", "", "1"]);
        let output = fed(&["--json"], &input);
        assert_eq!((output.status.code(), complaints(&output)), (Some(2), complaint));
        let refusal = format!("{{\"number\":3,\"text\":\"{named}\"}}");
        let dates = [format!("\"{from}\""), format!("\"{to}\"")];
        let object = object(2, [&dates[0], &dates[1]], [&refusal, "null", "null"]);
        assert_eq!(lines(&output)[1], object);
    }
}

/// A line as JSON: the dates, or null for none; the refusal, the error and the count.
fn object(line: u32, [from, to]: [&str; 2], [refusal, error, count]: [&str; 3]) -> String {
    let given = if from == "null" { String::new() } else { format!("{from},{to}") };
    format!(
        "{{\"line\":{line},\"version\":1,\"call\":\"mf_portfolio\",\"arguments\":[{given}],\
         \"read\":{{\"from\":{from},\"to\":{to}}},\"refusal\":{refusal},\"error\":{error},\
         \"count\":{count}}}"
    )
}

#[test]
fn counts_as_json() {
    let given =
        counts(&["--json"], "VON;BIS\n\"2025-06-30\";\"2035-06-30\"\n\n2026-04-02 2026-04-07");
    let counted = |line, dates, count| object(line, dates, ["null", "null", count]);
    let expected = [
        counted(1, ["null"; 2], "null"),
        counted(2, ["\"2025-06-30\"", "\"2035-06-30\""], "2457"),
        counted(3, ["null"; 2], "null"),
        counted(4, ["\"2026-04-02\"", "\"2026-04-07\""], "1"),
    ];
    assert_eq!(given, expected);
}

/// What is given stands beside what was read of it.
#[test]
fn dates_as_they_were_given() {
    let given = counts(&["--json"], "2.4.2026 ; \"07.04.2026\"");
    let expected = object(1, ["\"2026-04-02\"", "\"2026-04-07\""], ["null", "null", "1"]);
    let arguments = "[\"2026-04-02\",\"2026-04-07\"]";
    assert_eq!(given, [expected.replace(arguments, "[\"2.4.2026\",\"07.04.2026\"]")]);
}

/// A line that cannot be read goes before a refusal, and that before an answer.
#[test]
fn the_status_is_that_of_the_worst_line() {
    let (good, refused, wrong) = ("2026-04-02 2026-04-07", "2026-04-02 2900-01-01", "1");
    let cases: [(&[&str], i32); 7] = [
        (&[good, good], 0),
        (&[refused, good], 2),
        (&[good, refused], 2),
        (&[wrong, good], 64),
        (&[wrong, refused], 64),
        (&[refused, wrong, good], 64),
        (&[wrong, wrong], 64),
    ];
    for (input, status) in cases {
        for form in [&[][..], &["--json"]] {
            let output = fed(form, input.join("\n"));
            assert_eq!((output.status.code(), lines(&output).len()), (Some(status), input.len()));
            let named = input.iter().filter(|line| **line != good).count();
            let last = usize::from(input.contains(&wrong));
            assert_eq!(complaints(&output).lines().count(), named + last, "{input:?}");
        }
    }
}

#[test]
fn a_complaint_stands_between_the_counts() {
    let lines = ["2026-04-02 2026-04-07", "1", "2026-04-02 2026-02-29", "2025-12-23 2026-01-07"];
    let path = file("dazwischen.csv", lines.join("\n"));
    let expected = format!(
        "1\nfristen: Zeile 2: VON: erwartet ein Datum wie 2026-04-02 oder 2.4.2026, nicht „1“\n\n\
         fristen: Zeile 3: Abgelehnt (3): BIS 2026-02-29: der Februar 2026 hat 28 Tage.\n\n5\n\
         {ONE_UNREAD}"
    );
    assert_eq!(said("portfolio", &path), (expected, Some(64)));
}

/// More than a call takes; by the single call, and at its place.
#[test]
fn any_number_of_lines() {
    let mut random = Random(14);
    for count in [1, 4_095, 4_096, 4_097, 20_000] {
        let mut input = String::new();
        let mut expected = Vec::new();
        for _ in 0..count {
            let mut date = || Date::of_calendar_day(9_496 + random.below(330_180) as u32);
            let (from, to) = (date().expect("a date"), date().expect("a date"));
            input += &format!("{from};{to}\n");
            expected.push(werktage_between(from, to).expect("a count").werktage.to_string());
        }
        assert!(counts(&[], &input) == expected, "{count} lines");
        let path = file("viele.csv", &input);
        assert!(counts(&[path.to_str().expect("UTF-8")], "") == expected, "{count} lines");
    }
}

#[test]
fn input_in_pieces() {
    let pieces = ["\u{feff}VON;BI", "S\r\n2026-04-02;2026-", "04-07\r\n2025-12-23;"];
    assert_at_once("portfolio", pieces, "\n1\n", "2026-01-07", "5\n");
}

#[test]
fn a_file_that_cannot_be_read() {
    assert_unread("portfolio", &[&[], &["--json"]]);
}

#[test]
fn a_long_portfolio_shows_how_far_it_has_come() {
    assert_shows_progress("portfolio", "2026-04-02 2026-04-07", "Paare gezählt");
}

#[test]
fn bad_usage() {
    for (arguments, expected) in [
        (&["--roh", "--json"][..], "--roh gibt es zu diesem Befehl nicht"),
        (&["a", "b"], "zu viel: „b“"),
        (&["--eeg", "ja"], "--eeg gehört nicht zu diesem Befehl"),
    ] {
        let complaint = complaint(&[&["portfolio"], arguments].concat());
        assert!(complaint.starts_with(&format!("fristen: {expected}\n")), "{complaint}");
        assert!(complaint.contains("\nAufruf: ./fristen portfolio [DATEI]\n"), "{complaint}");
    }
}

#[test]
fn a_very_long_line() {
    let blanks = format!("2026-04-02{}2026-04-07", " ".repeat(60_000));
    let comment = format!("# {}", "ä".repeat(1_000_000));
    let long = format!("2026-04-02{}2026-04-07", " ".repeat(5_000_000));
    let heading = "Beginn;".repeat(100_000);
    let output = fed(&[], [blanks.as_str(), &comment, &long, "2026-04-02 2026-04-07"].join("\n"));
    assert_eq!(
        (output.status.code(), lines(&output)),
        (Some(64), ["1", "", "", "1"].map(str::to_owned).to_vec())
    );
    let expected = "fristen: Zeile 3: erwartet weniger als 65536 Bytes\n";
    assert_eq!(complaints(&output), format!("{expected}{ONE_UNREAD}"));
    let output = fed(&[], heading);
    assert_eq!(output.status.code(), Some(64), "a digit may follow");
}

#[test]
fn a_reader_that_goes_away_has_read_enough() {
    let path = file("zeilen.csv", "2026-04-02;2026-04-07\n".repeat(200_000));
    assert_may_go_away("portfolio", &path, b"1\n", 0);
}

#[cfg(target_os = "linux")]
#[test]
fn an_output_that_cannot_be_written_is_a_failure() {
    let path = file("wenige.csv", "2026-04-02;2026-04-07\n1\n2026-04-02;2026-04-07\n");
    zeilen::assert_unwritten("portfolio", &path, 3);
}

/// In seconds, also where nothing is optimised and other tests run beside it.
#[test]
fn a_hundred_thousand_lines() {
    let count = 100_000;
    let line = |place: usize| {
        let (from, to, _) = CONTRACTS[place % 5];
        format!("{from};{to}\n")
    };
    let path = file("hunderttausend.csv", (0..count).map(line).collect::<String>());
    let started = Instant::now();
    let output = program().arg("portfolio").arg(path).output().expect("it runs");
    assert!(started.elapsed() < Duration::from_secs(60), "{:?}", started.elapsed());
    assert_eq!((output.status.code(), output.stderr.as_slice()), (Some(0), &b""[..]));
    let expected: Vec<_> = (0..count).map(|place| CONTRACTS[place % 5].2.to_string()).collect();
    assert!(lines(&output) == expected);
}

/// Lines of any kind: each has its place, and what has no count and is no blank line is named.
#[test]
fn no_lines_make_it_panic() {
    let mut random = Random(20_260_112);
    let mut input = b"2026-04-02;2026-04-07\n".to_vec();
    let words = [";", ",", " ", "\t", "\"", "#", "x", "ü", "2026-02-29", "\u{202e}", "\u{a0}"];
    for _ in 0..5_000 {
        for place in 0..random.below(7) {
            // A date, then what parts it from the next, for the most part.
            let word = match (place % 2, random.below(4)) {
                (0, 1..) => DATES[random.below(DATES.len())],
                (_, 1..) => words[random.below(4)],
                _ => words[random.below(words.len())],
            };
            input.extend(word.bytes());
        }
        let odd = if random.below(8) == 0 { random.below(9) } else { 0 };
        input.extend((0..odd).map(|_| random.below(256) as u8).filter(|byte| *byte != b'\n'));
        input.push(b'\n');
    }
    let output = fed(&[], &input);
    assert_eq!(output.status.code(), Some(64));
    let (given, named) = (lines(&output), complaints(&output));
    let number = |line: &str| line.strip_prefix("fristen: Zeile ")?.split(':').next()?.parse().ok();
    let named: Vec<usize> = named.lines().filter_map(number).collect();
    let asks = |line: &[u8]| {
        let line = line.strip_suffix(b"\r").unwrap_or(line);
        line.iter().find(|byte| !matches!(byte, b' ' | b'\t')).is_some_and(|first| *first != b'#')
    };
    let without = given.iter().zip(input.split(|byte| *byte == b'\n')).zip(1..);
    let without = without.filter(|((count, line), _)| count.is_empty() && asks(line));
    assert_eq!(given.len(), 5_001);
    assert_eq!(named, without.map(|(_, number)| number).collect::<Vec<usize>>());
    let counted = given.iter().filter(|count| count.parse::<u32>().is_ok()).count();
    assert!(counted > 100 && named.len() > 1_000, "{counted} counted, {} named", named.len());
}

/// What the README points to: a heading and twelve contracts.
#[test]
fn the_file_of_the_documents_is_counted() {
    let path = concat!(env!("CARGO_MANIFEST_DIR"), "/../docs/portfolio.csv");
    let text = fs::read_to_string(path).expect("it is there");
    let single = |line: &str| {
        let (from, to) = line.split_once(';')?;
        let between = werktage_between(from.parse().ok()?, to.parse().ok()?).ok()?;
        Some(between.werktage.to_string())
    };
    let expected: Vec<_> = text.lines().map(|line| single(line).unwrap_or_default()).collect();
    assert_eq!(expected.iter().filter(|count| !count.is_empty()).count(), 12);
    assert_eq!(counts(&[path], ""), expected);
}
