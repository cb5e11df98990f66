//! What `fristen` reads, as people write it, and what it says where it cannot answer. Instants by
//! `date -u -d … +%s`, offsets by the tz database.

use super::{complaint, printed, run, words};
use mako_fristen_host::{berlin_date, Date, Instant};
use std::os::unix::process::CommandExt;
use std::process::Command;
use std::time::SystemTime;

/// Of a call that is answered: what it prints, and what it says beside that.
pub fn answered(line: &str) -> (String, String) {
    let output = run(&words(line));
    assert_eq!(output.status.code(), Some(0), "{line}");
    let text = |bytes| String::from_utf8(bytes).expect("UTF-8");
    (text(output.stdout), text(output.stderr))
}

fn assert_same(lines: &[&str]) {
    for line in &lines[1..] {
        assert_eq!(printed(&words(line), 0), printed(&words(lines[0]), 0), "{line}");
    }
}

#[test]
fn a_date_in_any_of_its_forms() {
    assert_same(&["tag 2026-04-02", "tag 02.04.2026", "tag 2.4.2026", "tag 2. April 2026"]);
    assert_same(&[
        "check Korridor 1 2026-04-02 2026-04-07",
        "check Korridor 1 2. April 2026 7. april 2026",
    ]);
    assert_same(&["contrl Regelfall 2026-04-02 11:00", "contrl Regelfall 2. April 2026 um 11 Uhr"]);
    assert_same(&[
        "check LatestWerktageBefore 1 2026-01-10 2026-01-12",
        "check LatestWerktageBefore 1 10.01.2026 12.1.2026",
    ]);
    assert_same(&[
        "contrl Regelfall @1780653600 --stichtag 2026-06-06",
        "contrl Regelfall @1780653600 --stichtag=6.6.2026",
    ]);
}

/// The day may change while the program is asked.
#[test]
fn today_tomorrow_and_yesterday_are_berlins() {
    let today = || berlin_date(Instant::from(SystemTime::now())).expect("a day of the calendar");
    let days =
        [("heute", 0), ("Morgen", 1), ("GESTERN", -1), ("Übermorgen", 2), ("vorgestern", -2)];
    for (word, days) in days {
        let before = today();
        let said = printed(&["next-werktag", word], 0);
        let day = |date: Date| date.plus_days(days).expect("a date").to_string();
        let expected = [before, today()].map(|today| printed(&["next-werktag", &day(today)], 0));
        assert!(expected.contains(&said), "{word}: {said}");
    }
    let now = || Instant::from(SystemTime::now()).seconds;
    let before = now();
    let bytes = printed(&["add-hours", "jetzt", "0", "--bytes"], 0);
    let seconds: Vec<u8> = (8..16)
        .map(|at| u8::from_str_radix(&bytes[2 * at..2 * at + 2], 16).expect("hex"))
        .collect();
    let seconds = i64::from_le_bytes(seconds.try_into().expect("eight bytes"));
    assert!((before..=now()).contains(&seconds));
}

#[test]
fn an_instant_by_berlins_clock() {
    assert_same(&[
        "contrl Regelfall 2026-03-31T11:00:00+02:00",
        "contrl Regelfall 2026-03-31 11:00",
        "contrl Regelfall 2026-03-31T11:00",
        "contrl Regelfall 31.3.2026 11:00:00,0",
        "contrl Regelfall 31.3.2026 um 11 Uhr",
        "contrl Regelfall 31.3.2026 11:00 Uhr",
        "contrl Regelfall 2026-03-31 11:00 +02:00",
        "contrl Regelfall 2026-03-31 09:00 Z",
        "contrl Regelfall 2026-03-31T11:00+0200",
        "contrl Regelfall 2026-03-31T09:00:00Z",
        "contrl Regelfall @1774947600",
    ]);
    let one_word = printed(&["contrl", "Regelfall", "2026-03-31 11:00"], 0);
    assert_eq!(one_word, printed(&words("contrl Regelfall 2026-03-31 11:00"), 0));
    assert_same(&[
        "nth-werktag-at 2026-04-02T10:00:00+02:00 2 06:00",
        "nth-werktag-at 2026-04-02 10:00 2 6:00",
    ]);
    assert_same(&[
        "check-at Korridor 1 2026-01-12T00:00:00+01:00 2026-01-12T06:00:00+01:00 Gas",
        "check-at Korridor 1 2026-01-12 00:00 12.1.2026 06:00 Gas",
    ]);
    assert_same(&["berlin-at 2026-10-25 02:30:00.5", "berlin-at 25.10.2026 2:30:00,5"]);
    assert_same(&[
        "berlin-at 2026-10-25 13:00",
        "berlin-at 2026-10-25 13:00 Uhr",
        "berlin-at 2026-10-25 13 Uhr",
        "berlin-at 2026-10-25 13.00 uhr",
    ]);
    assert_same(&[
        "nth-werktag-at 2026-04-02 10:00 2 11:00",
        "nth-werktag-at 2.4.2026 10 Uhr 2 11 Uhr",
    ]);
    assert_same(&[
        "frist SameDayAt 12:00 2026-04-02 10:30",
        "frist SameDayAt 12 Uhr 2.4.2026 10.30 Uhr",
    ]);
    assert!(complaint(&words("next-werktag-at 2026-04-02 11:00")).contains("es fehlt: UHRZEIT"));
}

/// `berlin_at` refuses it, whatever call it was meant for; in every form.
#[test]
fn a_time_that_berlins_clock_does_not_show() {
    let absent =
        "Am Sonntag, dem 29. März 2026, gibt es 02:30 Uhr in Berlin nicht: um 02:00 Uhr wird die \
                  Uhr auf 03:00 Uhr vorgestellt.";
    let lines = [
        "contrl Regelfall 2026-03-29 02:30",
        "contrl Regelfall 29.3.2026 02:30 --stichtag 2026-06-06",
        "berlin-date 2026-03-29T02:30",
        "ankuendigung 2026-03-29 02:30 2026-03-30",
        "berlin-at 2026-03-29 02:30",
        "frist SameDayAt 02:30 2026-03-29 12:00",
    ];
    for line in lines {
        assert_eq!(printed(&words(line), 2), format!("Abgelehnt (6): {absent}\n"), "{line}");
        let json = printed(&words(&format!("{line} --json")), 2);
        assert!(
            json.contains(&format!("\"refusal\":{{\"number\":6,\"text\":\"{absent}\"}}")),
            "{json}"
        );
        let bytes = printed(&words(&format!("{line} --bytes")), 2);
        assert_eq!(bytes, format!("06{}\n", "00".repeat(31)));
    }
    let file = "contrl Regelfall 2026-03-29 02:30\ncontrl Regelfall 2026-03-29 03:30\n";
    let output = super::zeilen::fed("fragen", &[], file.as_bytes());
    assert_eq!(output.status.code(), Some(2));
    let lines = super::zeilen::lines(&output);
    assert_eq!(lines[0], format!("Zeile 1: Abgelehnt (6): {absent}"));
    assert!(
        lines[1].starts_with("Zeile 2: Eingang am Sonntag, dem 29. März 2026, um 03:30 Uhr"),
        "{lines:?}"
    );
}

/// The earlier instant is in summer time, 00:30 in UTC.
#[test]
fn a_time_that_berlins_clock_shows_twice_is_the_earlier() {
    let bytes = |line: &str| printed(&words(&format!("add-hours {line} 0 --bytes")), 0);
    assert_eq!(bytes("2026-10-25 02:30"), bytes("2026-10-25T00:30:00Z"));
    assert_ne!(bytes("2026-10-25 02:30"), bytes("2026-10-25T01:30:00Z"));
}

#[test]
fn an_offset_that_is_not_berlins_is_noted() {
    let noted = [
        (
            "contrl Regelfall 2026-03-31T11:00:00+01:00",
            "EINGANG: in Berlin gilt dann +02:00; gelesen ist Dienstag, 31. März 2026, 12:00 Uhr.",
        ),
        (
            "ankuendigung 2026-01-09T13:00:00+0200 2026-01-12",
            "EINGANG: in Berlin gilt dann +01:00; gelesen ist Freitag, 9. Januar 2026, 12:00 Uhr.",
        ),
        (
            "check-at Korridor 1 2026-01-12T00:00:00+01:00 2026-01-12T05:00:00+00:00 Gas --json",
            "TERMINBEGINN: in Berlin gilt dann +01:00; gelesen ist Montag, 12. Januar 2026, 06:00 Uhr.",
        ),
    ];
    for (line, note) in noted {
        assert_eq!(answered(line).1, format!("fristen: Hinweis: {note}\n"), "{line}");
    }
    for line in ["contrl Regelfall 2026-03-31T11:00+02:00", "contrl Regelfall 2026-03-31T09:00Z"] {
        assert_eq!(answered(line).1, "", "{line}");
    }
    let right = answered("contrl Regelfall 2026-03-31T12:00:00+02:00").0;
    assert_eq!(answered("contrl Regelfall 2026-03-31T11:00:00+01:00").0, right);
    let output = super::zeilen::fed("fragen", &[], b"\ncontrl Regelfall 2026-03-31T11:00+01:00\n");
    assert_eq!((output.status.code(), super::zeilen::lines(&output).len()), (Some(0), 1));
    let note = format!("fristen: Zeile 2: Hinweis: {}\n", noted[0].1);
    assert_eq!(super::zeilen::complaints(&output), note);
}

#[test]
fn what_may_be_a_slip_has_a_hint() {
    let zq7 = "ist nicht die Deaktivierung; das ist nur ZQ7, genau so geschrieben.";
    for line in ["abmeldung-fuer zq7 --eeg ja", "abmeldung Zq7 --eeg nein 2026-01-08 2026-01-12"] {
        let (answer, hint) = answered(line);
        assert!(answer.contains("Grund „") && hint.ends_with(&format!("“ {zq7}\n")), "{hint}");
    }
    for reason in ["", " ", " \t "] {
        let empty = run(&["abmeldung-fuer", reason, "--eeg", "ja"]);
        let hint = String::from_utf8_lossy(&empty.stderr);
        assert_eq!(hint, "fristen: Hinweis: der GRUND ist leer.\n", "{reason:?}");
    }
    let blank = run(&["abmeldung-fuer", "ZQ7 ", "--eeg", "ja"]);
    assert!(String::from_utf8_lossy(&blank.stderr).contains(&format!("„ZQ7 “ {zq7}")));
    let (_, hint) = answered("aperak-gas 55001 2026-04-02 10:00");
    let no_gas = "55001 ist kein Prüfidentifikator Gas (44xxx); gerechnet wird wie für einen \
                  Folgeprozess";
    assert_eq!(hint, format!("fristen: Hinweis: {no_gas}.\n"));
    for line in [
        "abmeldung-fuer ZQ7 --eeg ja",
        "abmeldung-fuer Z33 --eeg ja",
        "aperak-gas 44000 2026-04-02 10:00",
        "aperak-gas 44999 2026-04-02 10:00",
    ] {
        assert_eq!(answered(line).1, "", "{line}");
    }
}

/// Which part of a question is refused, and why.
const REFUSED: &[(&str, &str)] = &[
    ("tag 2026-02-30", "(3): 2026-02-30: der Februar 2026 hat 28 Tage."),
    ("tag 29.2.2100", "(3): 2100-02-29: der Februar 2100 hat 28 Tage."),
    ("tag 2024-02-30", "(3): 2024-02-30: der Februar 2024 hat 29 Tage."),
    ("tag 2026-04-31", "(3): 2026-04-31: der April 2026 hat 30 Tage."),
    ("tag 2026-13-01", "(3): 2026-13-01: einen 13. Monat gibt es nicht."),
    ("tag 2026-00-01", "(3): 2026-00-01: einen 0. Monat gibt es nicht."),
    ("tag 2026-04-00", "(3): 2026-04-00: einen 0. April gibt es nicht."),
    ("tag 1995-12-31", "(3): 1995-12-31: der Kalender beginnt am 1. Januar 1996."),
    ("tag 2900-01-01", "(3): 2900-01-01: der Kalender endet am 31. Dezember 2899."),
    ("werktage-between 2026-02-30 2026-04-02", "(3): VON 2026-02-30: der Februar 2026 hat 28 Tage."),
    ("werktage-between 2026-04-02 2026-02-30", "(3): BIS 2026-02-30: der Februar 2026 hat 28 Tage."),
    (
        "check Korridor 1 2026-02-30 2026-04-31",
        "(3): ÜBERTRAGUNGSTAG 2026-02-30: der Februar 2026 hat 28 Tage; TERMIN 2026-04-31: der April \
         2026 hat 30 Tage.",
    ),
    (
        "abmeldung Z33 --eeg ja 2026-01-08 2026-02-29",
        "(3): ZUORDNUNGSENDE 2026-02-29: der Februar 2026 hat 28 Tage.",
    ),
    (
        "contrl Regelfall 2026-06-05 12:00 --stichtag 2026-06-31",
        "(3): STICHTAG 2026-06-31: der Juni 2026 hat 30 Tage.",
    ),
    ("contrl Regelfall 2026-02-30 12:00", "(3): EINGANG 2026-02-30: der Februar 2026 hat 28 Tage."),
    ("contrl Regelfall 2026-02-30T12:00Z", "(3): EINGANG 2026-02-30: der Februar 2026 hat 28 Tage."),
    (
        "ankuendigung 2026-01-09 13:00 2026-02-30",
        "(3): ZUORDNUNGSBEGINN 2026-02-30: der Februar 2026 hat 28 Tage.",
    ),
    (
        "check-at WerktageVorher 1 2026-01-40 13:00 2026-02-30T00:00 Strom",
        "(3): ÜBERTRAGEN 2026-01-40: der Januar 2026 hat 31 Tage. TERMINBEGINN 2026-02-30: der Februar \
         2026 hat 28 Tage.",
    ),
    (
        "bis-wann Korridor 1 2026-02-30",
        "(3): 2026-02-30: der Februar 2026 hat 28 Tage.",
    ),
    ("kalender 1995", "(3): 1995: der Kalender beginnt mit dem Jahr 1996."),
    ("kalender 2900-01", "(3): 2900: der Kalender endet mit dem Jahr 2899."),
    ("kalender 2026-13", "(3): 2026-13: einen 13. Monat gibt es nicht."),
    (
        "berlin-date 1995-12-31T22:59:59Z",
        "(4): 1995-12-31 22:59:59 Uhr UTC: der Kalender beginnt am 1. Januar 1996 um 00:00 Uhr in \
         Berlin.",
    ),
    (
        "berlin-date @29348002800",
        "(4): 2899-12-31 23:00 Uhr UTC: der Kalender endet mit dem 31. Dezember 2899 in Berlin.",
    ),
    (
        "check-at Korridor 1 2026-01-12T00:00:00Z 9999-12-31T00:00:00Z Gas",
        "(4): TERMINBEGINN 9999-12-31 00:00 Uhr UTC: der Kalender endet mit dem 31. Dezember 2899 in \
         Berlin.",
    ),
    (
        "berlin-date @1774972799s1000000000ns",
        "(4): 1774972799 s 1000000000 ns: über 999999999 Nanosekunden beginnt die nächste Sekunde.",
    ),
    (
        "add-hours @-9223372036854775808 1",
        "(4): -9223372036854775808 s 0 ns: der Kalender beginnt am 1. Januar 1996 um 00:00 Uhr in \
         Berlin.",
    ),
    (
        "berlin-at 2026-01-01 24:00",
        "(5): 24:00:00: die letzte Stunde ist 23; 24:00 Uhr ist 00:00 Uhr des nächsten Tages.",
    ),
    ("berlin-at 2026-01-01 25:00", "(5): 25:00:00: die letzte Stunde ist 23."),
    ("berlin-at 2026-01-01 13:60", "(5): 13:60:00: die letzte Minute ist 59."),
    ("frist WerktagAt 1 13:00:60 2026-01-01 12:00", "(5): UHRZEIT 13:00:60: die letzte Sekunde ist 59."),
    ("contrl Regelfall 2026-01-01 25:00", "(5): EINGANG 25:00:00: die letzte Stunde ist 23."),
    (
        "tag-des-beginns 2026-03-29T05:00:00Z Gas",
        "(7): Sonntag, 29. März 2026, 07:00 Uhr: in der Sparte Gas beginnt ein Tag um 06:00 Uhr in \
         Berlin.",
    ),
    (
        "check-at Korridor 1 2026-01-12T00:00:00Z 2026-01-12T00:00:00Z Strom",
        "(7): Montag, 12. Januar 2026, 01:00 Uhr: in der Sparte Strom beginnt ein Tag um 00:00 Uhr in \
         Berlin.",
    ),
    (
        "next-werktag 2899-12-31",
        "(8): Der erste Werktag ab Donnerstag, dem 31. Dezember 2899, liegt hinter dem 31. Dezember 2899, \
         dem letzten Tag des Kalenders.",
    ),
    (
        "add-werktage 2026-04-02 4294967295",
        "(8): Der 4294967295. Werktag nach Donnerstag, dem 2. April 2026, liegt hinter dem 31. Dezember \
         2899, dem letzten Tag des Kalenders.",
    ),
    (
        "sub-werktage 1996-01-01 1",
        "(8): Der 1. Werktag vor Montag, dem 1. Januar 1996, liegt vor dem 1. Januar 1996, dem ersten \
         Tag des Kalenders.",
    ),
    (
        "add-months 2899-12-31 1",
        "(8): Der Tag 1 Monat nach Donnerstag, dem 31. Dezember 2899, liegt hinter dem 31. Dezember 2899, \
         dem letzten Tag des Kalenders.",
    ),
    (
        "subtract-months 1996-01-01 2",
        "(8): Der Tag 2 Monate vor Montag, dem 1. Januar 1996, liegt vor dem 1. Januar 1996, dem ersten \
         Tag des Kalenders.",
    ),
    (
        "add-hours 2899-12-31 22:00 3",
        "(8): Der Zeitpunkt 3 Stunden nach Donnerstag, dem 31. Dezember 2899, 22:00 Uhr, liegt hinter dem \
         31. Dezember 2899, dem letzten Tag des Kalenders.",
    ),
    (
        "frist EndOfWerktag 1 2899-12-31 12:00",
        "(8): Das Ende der Frist liegt hinter dem 31. Dezember 2899, dem letzten Tag des Kalenders.",
    ),
    (
        "aperak-gas-initialprozess 2899-12-29 12:00",
        "(8): Das Ende der Frist liegt hinter dem 31. Dezember 2899, dem letzten Tag des Kalenders.",
    ),
    (
        "ankuendigung 1996-01-01 00:00 1996-01-02",
        "(8): Der letzte Werktag vor Dienstag, dem 2. Januar 1996, liegt vor dem 1. Januar 1996, dem \
         ersten Tag des Kalenders.",
    ),
    (
        "bis-wann WerktageVorher 1 1996-01-01",
        "(8): Der späteste Übertragungstag für den Termin am Montag, dem 1. Januar 1996, liegt vor dem \
         1. Januar 1996, dem ersten Tag des Kalenders.",
    ),
    (
        "bis-wann WerktageNachher 1 2899-12-31",
        "(8): Der späteste Übertragungstag für den Termin am Donnerstag, dem 31. Dezember 2899, liegt \
         hinter dem 31. Dezember 2899, dem letzten Tag des Kalenders.",
    ),
    (
        "span LatestMonateBefore 4294967295 2026-01-01",
        "(8): Der erste zulässige Termin liegt hinter dem 31. Dezember 2899, dem letzten Tag des \
         Kalenders.",
    ),
    (
        "span Korridor 1 1996-01-01",
        "(8): Der erste zulässige Termin liegt vor dem 1. Januar 1996, dem ersten Tag des Kalenders.",
    ),
    (
        "span Korridor 1 2899-12-31",
        "(8): Der letzte zulässige Termin liegt hinter dem 31. Dezember 2899, dem letzten Tag des \
         Kalenders.",
    ),
    (
        "span WindowWerktageBefore 5 0 2899-12-29",
        "(8): Der letzte zulässige Termin liegt hinter dem 31. Dezember 2899, dem letzten Tag des \
         Kalenders.",
    ),
    (
        "span LatestWerktageAfter 1 1996-01-02",
        "(8): Der erste zulässige Termin liegt vor dem 1. Januar 1996, dem ersten Tag des Kalenders.",
    ),
    (
        "check Korridor 1 1996-01-01 1996-01-01",
        "(8): Der früheste Übertragungstag für den Termin am Montag, dem 1. Januar 1996, liegt vor dem \
         1. Januar 1996, dem ersten Tag des Kalenders.",
    ),
    (
        "check LatestWerktageBefore 1 1996-01-01 1996-01-02",
        "(8): Der späteste Übertragungstag für den Termin am Dienstag, dem 2. Januar 1996, liegt vor dem \
         1. Januar 1996, dem ersten Tag des Kalenders.",
    ),
    (
        "check LatestMonateBefore 1 2899-12-15 2899-12-31",
        "(8): Der Termin, den die Quelle als frühesten nennt, liegt hinter dem 31. Dezember 2899, dem \
         letzten Tag des Kalenders.",
    ),
    (
        "check LatestWerktageBefore 3 2899-12-28 2899-12-28",
        "(8): Der Termin, den die Quelle als frühesten nennt, liegt hinter dem 31. Dezember 2899, dem \
         letzten Tag des Kalenders.",
    ),
    (
        "check EarliestWerktageAfter 5 2899-12-29 2899-12-31",
        "(8): Der Termin, den die Quelle als frühesten nennt, liegt hinter dem 31. Dezember 2899, dem \
         letzten Tag des Kalenders.",
    ),
    (
        "abmeldung Z33 --eeg ja 2899-12-15 2899-12-31",
        "(8): Das Zuordnungsende, das die Quelle als frühestes nennt, liegt hinter dem 31. Dezember 2899, \
         dem letzten Tag des Kalenders.",
    ),
    (
        "abmeldung Z33 --eeg ja 1996-01-01 1996-01-15",
        "(8): Der späteste Übertragungstag für das Zuordnungsende am Montag, dem 15. Januar 1996, liegt \
         vor dem 1. Januar 1996, dem ersten Tag des Kalenders.",
    ),
];

#[test]
fn a_refusal_names_its_culprit() {
    for (line, sentence) in REFUSED {
        assert_eq!(printed(&words(line), 2), format!("Abgelehnt {sentence}\n"), "{line}");
        let json = printed(&words(&format!("{line} --json")), 2);
        let text = sentence.split_once(": ").expect("a sentence").1;
        assert!(json.contains(&format!(",\"text\":\"{text}\"}}")), "{json}");
    }
}

/// Each German name beside that of the source, in any letter case, with umlauts or without.
#[test]
fn german_names() {
    let names = [
        ("next-werktag 2026-04-04", "nächster-werktag naechster-werktag NÄCHSTER_WERKTAG"),
        ("add-werktage 2026-04-02 1", "werktage-nach Werktage-Nach ADD_WERKTAGE"),
        ("sub-werktage 2026-04-07 1", "werktage-vor"),
        ("werktage-between 2026-04-02 2026-04-07", "werktage-zwischen"),
        ("add-months 2026-01-31 1", "monate-nach"),
        ("subtract-months 2026-03-15 2", "monate-vor"),
        ("berlin-at 2026-10-25 02:30", "uhrzeit"),
        ("berlin-midnight 2026-03-29", "tagesanfang"),
        ("end-of-day-berlin 2026-03-29", "tagesende"),
        ("tagesbeginn-utc 2026-03-29 Gas", "tagesbeginn"),
        ("berlin-date 2026-03-31T22:30:00Z", "zeitpunkt"),
        ("contrl-due-at-change Regelfall @1780653600 2026-06-06", "contrl-mit-stichtag"),
        ("add-hours @1780653600 1", "stunden-nach"),
        ("deadline-at-werktage @1780653600 1", "ende-des-werktags"),
        ("end-of-werktag-after @1780653600 1", "ablauf-des-werktags"),
        ("next-werktag-at @1780653600 12:00", "nächster-werktag-um"),
        ("nth-werktag-at @1780653600 2 12:00", "werktag-um"),
        ("check Korridor 1 2026-01-12 2026-01-12", "prüfen pruefen"),
        ("check-at Korridor 1 2026-01-12 00:00 2026-01-12 00:00 Strom", "prüfen-zeitpunkt"),
        ("span Korridor 1 2026-01-12", "spanne"),
        ("tag 2026-01-12", "Tag IS-WERKTAG Mf_Is_Werktag"),
    ];
    for (line, others) in names {
        let (name, operands) = line.split_once(' ').expect("operands");
        for other in words(others) {
            assert_same(&[line, &format!("{other} {operands}")]);
            let help = printed(&["help", other], 0);
            assert_eq!(printed(&[other, "--help"], 0), help);
            assert!(help.contains(name), "{help}");
        }
    }
}

/// Each shape by its German name in a call of this command, with these operands behind it.
fn assert_named(command: &str, operands: &str, shapes: &[(&str, &str)]) {
    for (shape, german) in shapes {
        let (name, counts) = shape.split_once(' ').unwrap_or((shape, ""));
        let call = |name| format!("{command} {name} {counts} {operands}");
        assert_same(&[&call(name), &call(german)]);
    }
}

#[test]
fn german_names_of_shapes() {
    let vorlauf = [
        ("LatestWerktageBefore 2", "WerktageVorher"),
        ("WindowWerktageBefore 5 2", "Zeitfenster"),
        ("LatestWerktageAfter 2", "WerktageNachher"),
        ("EarliestWerktageAfter 2", "TerminNachWerktagen"),
        ("TagVorDemLetztenWerktagVor", "TagVorLetztemWerktag"),
        ("LatestMonateBefore 2", "MonateVorher"),
        ("LatestMonateUndWerktageBefore 2 1", "monateundwerktagevorher"),
    ];
    assert_named("span", "2026-01-05", &vorlauf);
    let frist = [
        ("WerktagAt 2 06:00", "WerktagUm"),
        ("EndOfWerktag 2", "EndeDesWerktags"),
        ("SameDayAt 12:00", "SelberTagUm"),
        ("SameDay", "SELBERTAG"),
    ];
    assert_named("frist", "2026-01-05 10:00", &frist);
}

/// Every shape of every command that takes one has a line and an example that is answered.
#[test]
fn the_help_shows_each_shape_with_an_example() {
    for (command, count) in
        [("check", 8), ("check-at", 8), ("span", 8), ("bis-wann", 8), ("frist", 4)]
    {
        let help = printed(&["help", command], 0);
        let (_, shapes) = help.split_once("\nFORM\n").expect("the shapes");
        let calls: Vec<_> =
            shapes.lines().filter_map(|l| l.strip_prefix("      $ ./fristen ")).collect();
        assert_eq!(calls.len(), count, "{help}");
        for call in calls {
            assert!(call.starts_with(&format!("{command} ")), "{call}");
            assert!(!printed(&words(call), 0).is_empty(), "{call}");
        }
    }
    let help = printed(&["help", "check"], 0);
    let shape =
        "  WerktageVorher, auch LatestWerktageBefore N\n      spätestens am N-ten Werktag vor dem \
                 Termin\n      $ ./fristen check WerktageVorher 5 2026-04-02 2026-04-13\n";
    assert!(help.contains(shape), "{help}");
}

#[test]
fn calendars_of_months_and_of_several_years() {
    let april = printed(&["kalender", "2026-04"], 0);
    for words in [&["4.2026"][..], &["4/2026"], &["April", "2026"], &["april 2026"]] {
        assert_eq!(april, printed(&[&["kalender"], words].concat(), 0), "{words:?}");
    }
    assert!(april.starts_with("Kalender April 2026 (* kein Werktag)\n\nApril: 20 Werktage\n"));
    assert!(april
        .ends_with("\n 6. April      Montag      Ostermontag\n\nApril 2026 hat 20 Werktage.\n"));
    let july = printed(&["kalender", "07.2026"], 0);
    assert!(july.ends_with("\n27 28 29 30 31\n\nJuli 2026 hat 23 Werktage.\n"), "{july}");
    let both = printed(&["kalender", "2026-04", "07.2026"], 0);
    assert_eq!(both, format!("{april}\n{july}"));
    let year = printed(&["kalender"], 0);
    let this = berlin_date(Instant::from(SystemTime::now())).expect("a day").year;
    assert!(year.starts_with(&format!("Kalender {this} ")), "or it is New Year's Eve: {year}");
    let json = printed(&["kalender", "2026", "2026-04", "--json"], 0);
    assert_eq!(json.lines().count(), 2);
    assert!(json.contains("\"month\":null,") && json.contains("\"month\":4,"), "{json}");
    let some = printed(&["kalender", "1995", "2026-04"], 2);
    assert_eq!(
        some,
        format!("Abgelehnt (3): 1995: der Kalender beginnt mit dem Jahr 1996.\n\n{april}")
    );
}

#[test]
fn the_version() {
    let version = printed(&["--version"], 0);
    assert_eq!(version, format!("fristen {}\n", env!("CARGO_PKG_VERSION")));
    assert_eq!(version, printed(&["tag", "--version"], 0));
}

/// Its messages are to be typed again.
#[test]
fn the_program_is_named_as_it_was_called() {
    let called = |name: &str, arguments: &[&str]| {
        let output =
            Command::new(env!("CARGO_BIN_EXE_fristen")).arg0(name).args(arguments).output();
        let output = output.expect("it runs");
        String::from_utf8([output.stdout, output.stderr].concat()).expect("UTF-8")
    };
    let wrong = called("fristen", &["tag"]);
    assert_eq!(
        wrong,
        "fristen: es fehlt: DATUM\nAufruf: fristen tag DATUM\nMehr: fristen tag --help\n"
    );
    let path = called("/opt/desk/bin/fristen", &["tag"]);
    assert!(path.ends_with("\nMehr: /opt/desk/bin/fristen tag --help\n"), "{path}");
    let help = called("fristen", &["help", "portfolio"]);
    assert!(
        help.starts_with("Aufruf: fristen portfolio [DATEI]\n") && !help.contains("./"),
        "{help}"
    );
    assert!(called("werktage", &["tga"]).starts_with("werktage: unbekannter Befehl „tga“. Meinten"));
}

/// What is asked is answered nowhere: a script must not take that for an answer.
#[cfg(target_os = "linux")]
#[test]
fn a_closed_standard_output_is_an_error() {
    let ended = |line: &str| {
        let script = format!("exec \"$0\" {line}");
        let output =
            Command::new("sh").args(["-c", &script, env!("CARGO_BIN_EXE_fristen")]).output();
        let output = output.expect("it runs");
        (output.status.code(), String::from_utf8(output.stderr).expect("UTF-8"))
    };
    let closed = |line: &str| ended(&format!("{line} >&-"));
    let unwritten = (Some(74), "fristen: Die Ausgabe ließ sich nicht schreiben.\n".to_owned());
    for line in ["tag 2026-11-18", "kalender 2026", "--help", "--version", "tag 2026-02-30"] {
        assert_eq!(closed(line), unwritten, "{line}");
    }
    let output = super::zeilen::file("eine.txt", "contrl Regelfall 2026-03-31 11:00\n");
    let path = output.to_str().expect("UTF-8");
    assert_eq!(closed(&format!("fragen {path}")), unwritten);
    assert_eq!(ended("tag 2026-11-18 1</dev/null"), unwritten, "opened for reading alone");
    assert_eq!(ended("tag 2026-11-18 >/dev/full"), unwritten);
    assert_eq!(ended("tag 2>/dev/full").0, Some(74), "a complaint that cannot be written");
    assert_eq!(closed("tag").0, Some(64), "a complaint goes elsewhere");
    // Whoever wants no answer may say so, be it opened for reading too. No input is needed.
    for null in [">/dev/null", "1<>/dev/null", ">/dev/null <&-"] {
        assert_eq!(ended(&format!("tag 2026-11-18 {null}")), (Some(0), String::new()), "{null}");
    }
}
