//! `--kurz`, the bare value for a script, and `--status`, yes or no as an exit status.

use super::fragen::MIXED;
use super::zeilen::{complaints, fed, lines};
use super::{complaint, printed, run, words};

/// Of each content; the dates and instants of the other tests.
const SHORT: &[(&str, &str)] = &[
    ("tag 2026-04-07", "Werktag"),
    ("tag 2026-04-05", "Sonntag"),
    ("tag 2026-11-18", "Buß- und Bettag"),
    ("next-werktag 2026-04-04", "2026-04-07"),
    ("add-werktage 2.4.2026 1", "2026-04-07"),
    ("sub-werktage 2026-04-07 1", "2026-04-02"),
    ("add-months 2026-01-31 1", "2026-02-28"),
    ("werktage-between 2026-04-02 2026-04-07", "1"),
    ("werktage-between 2026-04-07 2026-04-02", "0"),
    ("berlin-at 2026-10-25 02:30", "2026-10-25T02:30:00+02:00"),
    ("berlin-midnight 2026-03-29", "2026-03-29T00:00:00+01:00"),
    ("end-of-day-berlin 2026-03-29", "2026-03-29T23:59:59.999999999+02:00"),
    ("tagesbeginn-utc 2026-03-29 Gas", "2026-03-29T06:00:00+02:00"),
    ("berlin-date 2026-03-31T22:30:00Z", "2026-04-01"),
    ("tag-des-beginns 2026-03-29T04:00:00Z Gas", "2026-03-29"),
    ("contrl Regelfall 2026-03-31T12:00", "2026-04-02T00:00:00+02:00"),
    ("contrl Regelfall 2026-06-05T12:00 --stichtag 2026-06-06", "2026-06-07T00:00:00+02:00"),
    ("aperak-strom 2026-01-10T10:00", "2026-01-11T12:00:00+01:00"),
    ("aperak-gas 44001 2026-04-02T10:00", "2026-04-09T23:59:59.999999999+02:00"),
    ("add-hours 2026-10-25T01:30:00Z 0", "2026-10-25T02:30:00+01:00"),
    ("frist SameDayAt 12:00 2026-01-09T12:00", "2026-01-12T12:00:00+01:00"),
    ("check LatestWerktageBefore 1 2026-01-09 2026-01-12", "Ok"),
    ("check LatestWerktageBefore 1 2026-01-10 2026-01-12", "TooLate"),
    ("check Korridor 0 2026-01-10 2026-01-11", "TooEarly"),
    ("check-at TagVorDemLetztenWerktagVor 2026-01-07T23:30:00Z 2026-01-09T00:00 Strom", "TooLate"),
    ("span LatestWerktageBefore 1 2026-01-10", "2026-01-13/.."),
    ("span Korridor 2 2026-04-07", "2026-04-01/2026-04-09"),
    ("span WindowWerktageBefore 1 1 2026-01-10", ""),
    ("bis-wann WerktageVorher 1 2026-04-07", "2026-04-02"),
    ("bis-wann Korridor 2 2026-04-07", "2026-04-09"),
    ("bis-wann Zeitfenster 0 5 2026-01-12", ""),
    ("abmeldung-fuer Z33 --eeg nein", "TagVorDemLetztenWerktag"),
    ("abmeldung-fuer Z33 --eeg ja", "EinMonat"),
    ("abmeldung-fuer Z33 --eeg unbekannt", "Unbestimmt"),
    ("abmeldung-fuer ZQ7 --eeg nein", "AnPruefschritt120"),
    ("abmeldung ZT0 2026-01-08 2026-01-12 --eeg nein", "Ok"),
    ("abmeldung ZQ7 2026-01-08 2026-01-12 --eeg ja", "NoShape"),
    ("ankuendigung 2026-01-09T13:00 2026-01-12", "Ja"),
    ("ankuendigung 2026-01-09T13:00:01 2026-01-12", "Nein"),
    ("ankuendigung 2026-01-12T00:00 2026-01-12", "WederNoch"),
    ("kalender 2026", "249"),
    ("kalender 2026-04", "20"),
];

#[test]
fn the_bare_value() {
    for (line, expected) in SHORT {
        // A hint may stand beside it.
        let output = run(&words(&format!("{line} --kurz")));
        assert_eq!(output.status.code(), Some(0), "{line}");
        assert_eq!(String::from_utf8_lossy(&output.stdout), format!("{expected}\n"), "{line}");
    }
    assert_eq!(printed(&words("--kurz kalender 2026 2026-04 4.2026"), 0), "249\n20\n20\n");
}

/// What would be taken for a value is not printed: the sentence goes to the standard error.
#[test]
fn a_refusal_has_no_value() {
    let refused = [
        "tag 2026-02-30",
        "add-werktage 2899-12-31 1",
        "werktage-between 2026-04-02 2900-01-01",
        "berlin-at 2026-03-29 02:30",
        "contrl Regelfall 2026-03-29T02:30",
        "check Korridor 1 1996-01-01 1996-01-01",
        "span LatestMonateBefore 1 2899-12-31",
        "bis-wann WerktageVorher 1 1996-01-01",
        "abmeldung ZQ7 2026-01-08 2026-02-29 --eeg ja",
        "ankuendigung 2026-01-12T00:00 1995-01-01",
        "kalender 1995",
    ];
    for line in refused {
        let output = run(&words(&format!("{line} --kurz")));
        assert_eq!((output.status.code(), &output.stdout[..]), (Some(2), &b""[..]), "{line}");
        let sentence = printed(&words(line), 2);
        assert_eq!(complaints(&output), format!("fristen: {sentence}"), "{line}");
    }
}

/// Of several calendars each has its line.
#[test]
fn a_refused_calendar_among_others_keeps_its_place() {
    let output = run(&words("kalender 2026 1995 2026-04 --kurz"));
    assert_eq!(
        (output.status.code(), lines(&output)),
        (Some(2), vec!["249".into(), String::new(), "20".into()])
    );
    let complaint = complaints(&output);
    assert!(
        complaint.starts_with("fristen: Abgelehnt (3): 1995: ") && complaint.lines().count() == 1,
        "{complaint}"
    );
}

const FILE: &str = "\
contrl Regelfall 2026-03-31T12:00
# check
frist SameDay 2026-01-10T10:00
check LatestWerktageBefore 1 2026-01-10 2026-01-12
span WindowWerktageBefore 1 1 2026-01-10
frist SameDay 2026-03-29T02:30
span Korridor 2 2026-04-07
";

#[test]
fn the_values_of_a_file() {
    let output = fed("fragen", &["--kurz"], FILE.as_bytes());
    let expected = [
        "1: 2026-04-02T00:00:00+02:00",
        "3: 2026-01-10T23:59:59.999999999+01:00",
        "4: TooLate",
        "5:",
        "6:",
        "7: 2026-04-01/2026-04-09",
    ];
    assert_eq!(
        (lines(&output), output.status.code()),
        (expected.map(str::to_owned).to_vec(), Some(2))
    );
    let sentence = printed(&words("frist SameDay 2026-03-29T02:30"), 2);
    assert_eq!(complaints(&output), format!("fristen: Zeile 6: {sentence}"));
}

/// Each line is answered as its command is, and a refusal keeps its place.
#[test]
fn each_value_of_a_file_is_its_commands() {
    let (mut values, mut sentences) = (Vec::new(), String::new());
    for (place, question) in MIXED.iter().enumerate() {
        let single = run(&words(&format!("{question} --kurz")));
        let value = lines(&single).concat();
        values.push(format!("{}: {value}", place + 1).trim_end().to_owned());
        let named = format!("fristen: Zeile {}: ", place + 1);
        sentences.push_str(&complaints(&single).replace("fristen: ", &named));
    }
    let output = fed("fragen", &["--kurz"], MIXED.join("\n").as_bytes());
    assert_eq!((lines(&output), complaints(&output)), (values, sentences));
}

/// As without an option: the counts, and an empty line for what has none.
#[test]
fn the_values_of_a_portfolio() {
    let input = b"VON;BIS\n2026-04-02;2026-04-07\n2026-04-02;2026-02-29\n";
    let output = fed("portfolio", &["--kurz"], input);
    assert_eq!(
        (lines(&output), output.status.code()),
        (vec!["".into(), "1".into(), String::new()], Some(2))
    );
    let plain = fed("portfolio", &[], input);
    assert_eq!((output.stdout, output.stderr), (plain.stdout, plain.stderr));
}

/// What is beside the value stays beside it.
#[test]
fn a_note_is_no_value() {
    let output = run(&words("berlin-date 2026-04-07T12:00:00+01:00 --kurz"));
    assert_eq!((lines(&output), output.status.code()), (vec!["2026-04-07".into()], Some(0)));
    let note = complaints(&output);
    assert!(note.starts_with("fristen: Hinweis: ") && note.lines().count() == 1, "{note}");
    let input = b"frist SameDay 2026-04-07T12:00:00+01:00\n";
    for form in [&[][..], &["--kurz"], &["--json"]] {
        let output = fed("fragen", form, input);
        assert_eq!((lines(&output).len(), output.status.code()), (1, Some(0)));
        assert_eq!(
            complaints(&output),
            note.replace("fristen: ", "fristen: Zeile 1: ").replace("ZEITPUNKT", "EINGANG")
        );
    }
}

/// 0 is yes, 1 no, 3 neither, and 2 a refusal.
const STATUS: &[(&str, i32)] = &[
    ("tag 2026-04-07", 0),
    ("tag 2026-04-05", 1),
    ("tag 2026-11-18", 1),
    ("tag 2026-02-30", 2),
    ("check LatestWerktageBefore 1 2026-01-09 2026-01-12", 0),
    ("check LatestWerktageBefore 1 2026-01-10 2026-01-12", 1),
    ("check Korridor 0 2026-01-10 2026-01-11", 1),
    ("check Korridor 1 1996-01-01 1996-01-01", 2),
    ("check-at TagVorDemLetztenWerktagVor 2026-01-07T22:30:00Z 2026-01-09T00:00 Strom", 0),
    ("check-at TagVorDemLetztenWerktagVor 2026-01-07T23:30:00Z 2026-01-09T00:00 Strom", 1),
    ("check-at Korridor 1 2026-01-12T00:00 2026-01-12T05:00 Gas", 2),
    ("span LatestWerktageBefore 1 2026-01-10", 0),
    ("span Korridor 2 2026-04-07", 0),
    ("span WindowWerktageBefore 1 1 2026-01-10", 1),
    ("span LatestMonateBefore 1 2899-12-31", 2),
    ("bis-wann WerktageVorher 1 2026-04-07", 0),
    ("bis-wann Zeitfenster 0 5 2026-01-12", 1),
    ("bis-wann WerktageVorher 1 1996-01-01", 2),
    ("abmeldung ZT0 2026-01-08 2026-01-12 --eeg nein", 0),
    ("abmeldung ZT0 2026-01-09 2026-01-12 --eeg nein", 1),
    ("abmeldung ZQ7 2026-01-08 2026-01-12 --eeg ja", 3),
    ("abmeldung Z33 2026-01-08 2026-01-12 --eeg unbekannt", 3),
    ("abmeldung Z33 2026-01-08 2026-02-29 --eeg unbekannt", 2),
    ("ankuendigung 2026-01-09T13:00 2026-01-12", 0),
    ("ankuendigung 2026-01-09T13:00:01 2026-01-12", 1),
    ("ankuendigung 2026-01-08T23:59 2026-01-12", 1),
    ("ankuendigung 2026-01-12T00:00 2026-01-12", 3),
    ("ankuendigung 2026-01-12T00:00 1995-01-01", 2),
];

/// It changes nothing of what is printed, and without it a no is an answer like any other.
#[test]
fn yes_or_no_as_a_status() {
    for (line, status) in STATUS {
        let plain = if *status == 2 { 2 } else { 0 };
        let no_bytes = line.starts_with("bis-wann");
        for form in [&[][..], &["--json"], &["--kurz"], &["--bytes"]] {
            if no_bytes && form == ["--bytes"] {
                continue;
            }
            let without = run(&[&words(line)[..], form].concat());
            assert_eq!(without.status.code(), Some(plain), "{line} {form:?}");
            let with = run(&[&words(line)[..], form, &["--status"]].concat());
            assert_eq!(with.status.code(), Some(*status), "{line} {form:?}");
            assert_eq!(
                (with.stdout, with.stderr),
                (without.stdout, without.stderr),
                "{line} {form:?}"
            );
        }
    }
}

/// The worst line: one that cannot be read, then a refusal, then a no. What is neither yes nor no
/// is answered.
#[test]
fn the_status_of_a_file() {
    let (yes, no) = ("span Korridor 2 2026-04-07", "span WindowWerktageBefore 1 1 2026-01-10");
    let (date, refused) = ("contrl Regelfall 2026-03-31T12:00", "span Korridor 2 2026-02-30");
    let late = "check LatestWerktageBefore 1 2026-01-10 2026-01-12";
    let cases: [(&[&str], i32); 8] = [
        (&[], 0),
        (&[yes, date], 0),
        (&[yes, no, date], 1),
        (&[late, yes], 1),
        (&[no, refused, yes], 2),
        (&[refused, no], 2),
        (&["gestern", refused, no], 64),
        (&[no, "gestern"], 64),
    ];
    for (questions, status) in cases {
        let input = questions.join("\n");
        for form in ["", "--json", "--kurz", "--bytes"] {
            let with = fed("fragen", &words(&format!("{form} --status")), input.as_bytes());
            assert_eq!(with.status.code(), Some(status), "{questions:?}");
            let without = fed("fragen", &words(form), input.as_bytes());
            assert_eq!(without.status.code(), Some(if status == 1 { 0 } else { status }));
            assert_eq!((with.stdout, with.stderr), (without.stdout, without.stderr));
        }
    }
}

#[test]
fn a_command_without_yes_or_no_has_no_status() {
    let commands = [
        "next-werktag 2026-04-04",
        "add-werktage 2026-04-02 1",
        "werktage-between 2026-04-02 2026-04-07",
        "berlin-at 2026-03-29 12:00",
        "berlin-date 2026-03-29T12:00",
        "contrl Regelfall 2026-03-31T12:00",
        "aperak-gas 44001 2026-03-31T12:00",
        "frist SameDay 2026-03-31T12:00",
        "abmeldung-fuer Z33 --eeg ja",
        "kalender 2026",
        "portfolio -",
    ];
    for line in commands {
        let complaint = complaint(&words(&format!("{line} --status")));
        assert!(
            complaint.starts_with("fristen: --status gibt es zu diesem Befehl nicht\n"),
            "{complaint}"
        );
    }
    let raw = complaint(&words("fragen --roh --status"));
    assert!(
        raw.starts_with("fristen: erwartet --roh ohne --json, --kurz, --bytes und --status\n"),
        "{raw}"
    );
}

/// It would be the form of an answer that a script takes for a value.
#[test]
fn one_form_at_a_time() {
    for line in
        ["tag 2026-04-07 --kurz --json", "kalender --kurz --bytes", "fragen - --json --kurz"]
    {
        let complaint = complaint(&words(line));
        assert!(
            complaint.starts_with("fristen: erwartet nur eines von --json, --bytes und --kurz\n"),
            "{complaint}"
        );
    }
    for line in ["bis-wann Korridor 1 2026-04-07 --bytes", "kalender 2026 --bytes"] {
        let complaint = complaint(&words(line));
        assert!(
            complaint.starts_with("fristen: --bytes gibt es zu diesem Befehl nicht\n"),
            "{complaint}"
        );
    }
}
