//! The margin of a verdict, by the words of document 02, F-6, on both sides.

mod replay;

use harness::instants::to_host;
use harness::original::{self, has_margin, margin};
use harness::random::Random;
use harness::rows::{self, margins, Row};
use mako_fristen_host::VorlaufShape::{
    EarliestWerktageAfter, Korridor, LatestMonateBefore, LatestMonateUndWerktageBefore,
    LatestWerktageAfter, LatestWerktageBefore, TagVorDemLetztenWerktagVor, WindowWerktageBefore,
};
use mako_fristen_host::{Answer, Call, Date, Eeg, Question, Reason, Sparte, VorlaufShape};
use replay::replayed;
use std::collections::HashSet;
use time::macros::datetime;

const OK: u8 = 0;
const TOO_LATE: u8 = 1;
const TOO_EARLY: u8 = 2;
const NO_SHAPE: u8 = 3;
const WINDOW: u8 = 1;

/// What both sides say, the original from the list of Werktage.
fn answer(question: &Question) -> Answer {
    let mut bytes = [u8::MAX; Answer::LEN];
    let number = question.ask(&mut bytes);
    let host = Answer::from_bytes(bytes);
    assert_eq!(number, host.number(), "{question}");
    let original = original::expected_by_list(question).expect("no unknown panic");
    assert_eq!(format!("{host:x}"), format!("{original:x}"), "{question}");
    host
}

/// The kind and the margin of what is not refused, for which the original walks as well.
fn found(question: &Question) -> (u8, i32) {
    let answer = answer(question);
    assert_eq!(original::expected(question), Ok(answer), "{question}");
    assert_eq!(answer.number(), 0, "{question}");
    (answer.kind(), margin(&answer))
}

fn verdict(shape: VorlaufShape, day: Date, anchor: Date) -> Question {
    Question::on(Call::VorlaufCheck, day).with_second(anchor).with_shape(shape)
}

fn deregistration(reason: &[u8], eeg: Eeg, day: Date, anchor: Date) -> Question {
    let reason = Reason::new(reason).expect("three bytes");
    let question = Question::on(Call::AbmeldungCheck, day).with_second(anchor);
    question.with_reason(reason).with_code(eeg.code())
}

fn january(day: u8) -> Date {
    Date::new(2026, 1, day)
}

fn april(day: u8) -> Date {
    Date::new(2026, 4, day)
}

/// "Case E gives −1."
#[test]
fn case_e() {
    let saturday = verdict(LatestWerktageBefore(1), january(10), january(12));
    let expected = Answer::default().with_kind(TOO_LATE).with_date(january(12));
    let mut expected = *expected.as_bytes();
    expected[28..].copy_from_slice(&[0xff; 4]);
    assert_eq!(answer(&saturday), Answer::from_bytes(expected));
}

/// Counted apart from both sides, with Python's `datetime`. 2 April is the Thursday before Karfreitag,
/// 7 April the Tuesday after Easter.
#[test]
fn each_shape_by_hand() {
    let date = Date::new;
    let three = LatestMonateUndWerktageBefore { monate: 3, werktage: 3 };
    for (shape, day, anchor, kind, margin) in [
        (LatestWerktageBefore(1), january(5), january(12), OK, 4),
        (LatestWerktageBefore(1), january(9), january(12), OK, 0),
        (LatestWerktageBefore(1), january(12), january(12), TOO_LATE, -3),
        (LatestWerktageBefore(0), april(4), april(4), OK, 0),
        (LatestWerktageAfter(1), april(3), april(2), OK, 4),
        (LatestWerktageAfter(1), april(7), april(2), OK, 0),
        (LatestWerktageAfter(1), april(8), april(2), TOO_LATE, -1),
        (EarliestWerktageAfter(1), april(2), april(10), OK, 3),
        (EarliestWerktageAfter(1), april(2), april(7), OK, 0),
        (EarliestWerktageAfter(1), april(2), april(3), TOO_LATE, -4),
        (Korridor(1), january(7), january(9), TOO_EARLY, 5),
        (Korridor(1), january(10), january(9), OK, 2),
        (Korridor(1), january(13), january(9), TOO_LATE, -1),
        (TagVorDemLetztenWerktagVor, january(4), january(8), OK, 2),
        (TagVorDemLetztenWerktagVor, january(8), january(10), OK, 0),
        (TagVorDemLetztenWerktagVor, january(8), january(9), TOO_LATE, -1),
        (LatestMonateBefore(1), date(2024, 2, 28), date(2024, 3, 31), OK, 1),
        (LatestMonateBefore(1), date(2026, 2, 28), date(2026, 3, 31), OK, 0),
        (LatestMonateBefore(1), january(31), date(2026, 2, 28), TOO_LATE, -3),
        (three, date(2026, 3, 1), date(2026, 7, 1), OK, 26),
        (three, date(2026, 3, 27), date(2026, 7, 1), OK, 0),
        (three, date(2026, 3, 28), date(2026, 7, 1), TOO_LATE, -1),
    ] {
        assert_eq!(found(&verdict(shape, day, anchor)), (kind, margin), "{shape:?} {day} {anchor}");
    }
}

/// For 14 January, whose 1., 2. and 3. Werktag before are the 13th, the 12th and the 9th.
#[test]
fn a_window_goes_by_the_day_on_which_it_closes() {
    for (earliest, latest, day, kind, margin) in [
        (2, 1, 9, TOO_EARLY, 4),
        (2, 1, 12, OK, 1),
        (2, 1, 13, OK, 0),
        (2, 1, 14, TOO_LATE, -1),
        (1, 1, 12, TOO_EARLY, 1),
        (1, 1, 13, OK, 0),
        (1, 1, 14, TOO_LATE, -1),
        (1, 3, 8, TOO_EARLY, 1),
        (1, 3, 9, TOO_EARLY, 0),
        (1, 3, 10, TOO_EARLY, -1),
        (1, 3, 12, TOO_EARLY, -3),
        (1, 3, 13, TOO_LATE, -4),
    ] {
        let window = WindowWerktageBefore { earliest, latest };
        let question = verdict(window, january(day), january(14));
        assert_eq!(found(&question), (kind, margin), "{question}");
    }
}

#[test]
fn it_goes_from_edge_to_edge() {
    for shape in [LatestWerktageBefore(0), LatestMonateBefore(0), EarliestWerktageAfter(0)] {
        let there = verdict(shape, Date::FIRST, Date::LAST);
        let back = verdict(shape, Date::LAST, Date::FIRST);
        assert_eq!([found(&there), found(&back)], [(OK, 330_179), (TOO_LATE, -330_179)]);
    }
    // The first Werktag is 2 January 1996 and the last 30 December 2899.
    let back = |n| verdict(LatestWerktageBefore(n), Date::FIRST, Date::LAST);
    let on = |n| verdict(LatestWerktageAfter(n), Date::LAST, Date::FIRST);
    assert_eq!([found(&back(222_031)), found(&on(222_031))], [(OK, 1), (TOO_LATE, -1)]);
    assert_eq!([back, on].map(|past| answer(&past(222_032)).number()), [8, 8]);
}

/// Saturday's last nanosecond is the 10th, and the Gas day of the 12th begins at 06:00.
#[test]
fn instants_count_by_their_days() {
    let beginning = to_host(datetime!(2026-01-12 05:00 UTC));
    let question = verdict(LatestWerktageBefore(1), Date::default(), Date::default());
    let question = Question { call: Call::VorlaufCheckAt, ..question };
    let question = question.with_second_code(Sparte::Gas.code()).with_second_instant(beginning);
    for (instant, expected) in [
        (datetime!(2026-01-09 22:59:59.999999999 UTC), (OK, 0)),
        (datetime!(2026-01-09 23:00 UTC), (TOO_LATE, -1)),
        (datetime!(2026-01-10 22:59:59.999999999 UTC), (TOO_LATE, -1)),
        (datetime!(2026-01-10 23:00 UTC), (TOO_LATE, -2)),
    ] {
        let question = Question { instant: to_host(instant), ..question };
        assert_eq!(found(&question), expected, "{question}");
    }
}

/// "No shape and refusals leave zero."
#[test]
fn a_deregistration_has_the_margin_of_its_shape_or_none() {
    let (eighth, ninth) = (january(8), january(9));
    for (reason, eeg, expected) in [
        (b"Z33", Eeg::No, (TOO_LATE, -1)),
        (b"Z33", Eeg::Yes, (TOO_LATE, -30)),
        (b"Z33", Eeg::Unknown, (NO_SHAPE, 0)),
        (b"ZQ7", Eeg::Yes, (NO_SHAPE, 0)),
    ] {
        assert_eq!(found(&deregistration(reason, eeg, eighth, ninth)), expected);
    }
    let refused = deregistration(b"Z33", Eeg::Yes, Date::FIRST, Date::FIRST);
    assert_eq!((answer(&refused).number(), margin(&answer(&refused))), (8, 0));
}

/// "It is negative exactly if the verdict is TooLate, apart from `WindowWerktageBefore` with `earliest`
/// below `latest`, where TooEarly may stand beside a negative margin."
#[test]
fn it_is_negative_exactly_under_too_late() {
    const RANDOM: u64 = 1_000_000;
    const EACH: u64 = 20_000;
    let rows = [rows::rows, rows::through_years, margins::rows].map(|rows| rows(1, RANDOM));
    let mut met = [0; 4];
    for row in rows.iter().flatten().filter(|row| has_margin(row.call)) {
        for question in some(row, EACH) {
            let answer = answer(&question);
            let (kind, negative) = (answer.kind(), margin(&answer) < 0);
            if answer.number() != 0 || kind == NO_SHAPE {
                assert_eq!(margin(&answer), 0, "{question}");
            } else if negative && kind == TOO_EARLY {
                let window = question.call != Call::AbmeldungCheck && question.code == WINDOW;
                assert!(window && question.n < question.n2, "{question}");
                met[3] += 1;
            } else {
                assert_eq!(negative, kind == TOO_LATE, "{question}");
                met[usize::from(kind)] += 1;
            }
        }
    }
    assert!(met[..3].iter().all(|&met| met > 10_000) && met[3] > 500, "{met:?}");
}

/// So many questions of the row, or as many as it has; those with an answer of 32 bytes.
fn some(row: &Row, number: u64) -> impl Iterator<Item = Question> + '_ {
    let places = (0..number.min(row.len)).map(|place| Random::at(1, 2, place).number() % row.len);
    let probes = places.map(|place| (row.probe)(place));
    probes.filter(|probe| probe.len == Answer::LEN).map(|probe| probe.question)
}

/// Each shape with margins of both signs and 0, a window that is too early although it has closed, and
/// margins through the calendar.
#[test]
fn the_replay_list_has_margins_of_every_kind() {
    let mut met = HashSet::new();
    let (mut far, mut closed) = ([false; 2], false);
    for (Question { code, .. }, answer) in replayed(Call::VorlaufCheck) {
        if answer.number() == 0 {
            let margin = margin(&answer);
            met.insert((code, margin.signum()));
            far[usize::from(margin < 0)] |= margin.abs() > 300_000;
            closed |= answer.kind() == TOO_EARLY && margin < 0;
        }
    }
    assert_eq!((met.len(), far, closed), (8 * 3, [true; 2], true), "{met:?}");
}
