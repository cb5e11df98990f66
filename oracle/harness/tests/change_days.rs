//! The CONTRL with a change day, by the words of document 02, F-7, on both sides.

mod replay;

use harness::days;
use harness::instants::{moved, to_host, tolerance_ends, TOLERANCE_ENDS};
use harness::original;
use mako_fristen_host::ContrlAnlass::{self, GasAlocat, Regelfall, StromUtilmdOderOrders};
use mako_fristen_host::{Answer, Call, Date, Instant, Question};
use replay::replayed;
use std::collections::HashSet;
use time::macros::datetime;
use time::OffsetDateTime;

const HOUR: i64 = 3600 * 1_000_000_000;

fn question(received: OffsetDateTime, anlass: ContrlAnlass, change_day: Date) -> Question {
    let question = Question::at(Call::ContrlDueAtChange, to_host(received));
    Question { date: change_day, ..question.with_code(anlass.code()) }
}

/// What both sides say.
fn answer(question: &Question) -> Answer {
    let mut bytes = [u8::MAX; Answer::LEN];
    let number = question.ask(&mut bytes);
    let host = Answer::from_bytes(bytes);
    assert_eq!(number, host.number(), "{question}");
    let original = original::expected(question).expect("no unknown panic");
    assert_eq!(format!("{host:x}"), format!("{original:x}"), "{question}");
    host
}

/// When what is not refused is due; nothing else stands in its answer.
fn due(question: &Question) -> Instant {
    let answer = answer(question);
    assert_eq!(answer, Answer::default().with_instant(answer.instant()), "{question}");
    answer.instant()
}

/// The due instants were found apart from both sides, with Python's `zoneinfo` and `datetime`. 6 June
/// 2025 is a Friday, 6 June 2026 a Saturday.
#[test]
fn each_anlass_by_hand() {
    let (april, friday) = (Date::new(2026, 4, 1), Date::new(2025, 6, 6));
    let (saturday, sunday) = (Date::new(2026, 6, 6), Date::new(2026, 6, 7));
    for (change_day, anlass, received, expected) in [
        (april, Regelfall, datetime!(2026-03-31 11:59:59 +2), datetime!(2026-03-31 15:59:59 UTC)),
        (april, Regelfall, datetime!(2026-03-31 12:00 +2), datetime!(2026-04-01 22:00 UTC)),
        (april, Regelfall, datetime!(2026-04-01 17:59:59 +2), datetime!(2026-04-01 22:00 UTC)),
        (april, Regelfall, datetime!(2026-04-01 18:00:01 +2), datetime!(2026-04-01 22:00:01 UTC)),
        (friday, Regelfall, datetime!(2025-06-05 11:59:59 +2), datetime!(2025-06-05 15:59:59 UTC)),
        (friday, Regelfall, datetime!(2025-06-05 12:00 +2), datetime!(2025-06-06 22:00 UTC)),
        (friday, Regelfall, datetime!(2025-06-06 18:00:01 +2), datetime!(2025-06-06 22:00:01 UTC)),
        (friday, GasAlocat, datetime!(2025-06-05 17:14:59 +2), datetime!(2025-06-05 15:59:59 UTC)),
        (friday, GasAlocat, datetime!(2025-06-05 17:15 +2), datetime!(2025-06-06 22:00 UTC)),
        (friday, GasAlocat, datetime!(2025-06-06 23:14:59 +2), datetime!(2025-06-06 22:00 UTC)),
        (friday, GasAlocat, datetime!(2025-06-06 23:15:01 +2), datetime!(2025-06-06 22:00:01 UTC)),
    ] {
        let question = question(received, anlass, change_day);
        assert_eq!(due(&question), to_host(expected), "{question}");
    }
    let strom = StromUtilmdOderOrders;
    for (change_day, received, expected) in [
        (friday, datetime!(2025-06-05 17:44:59 +2), datetime!(2025-06-05 15:59:59 UTC)),
        (friday, datetime!(2025-06-05 17:45 +2), datetime!(2025-06-06 22:00 UTC)),
        (friday, datetime!(2025-06-06 23:44:59 +2), datetime!(2025-06-06 22:00 UTC)),
        (friday, datetime!(2025-06-06 23:45:01 +2), datetime!(2025-06-06 22:00:01 UTC)),
        (saturday, datetime!(2026-06-05 17:45 +2), datetime!(2026-06-06 22:00 UTC)),
        (saturday, datetime!(2026-06-06 17:59:59 +2), datetime!(2026-06-06 22:00 UTC)),
        (saturday, datetime!(2026-06-06 18:00:01 +2), datetime!(2026-06-06 22:00:01 UTC)),
        (sunday, datetime!(2026-06-06 11:59:59 +2), datetime!(2026-06-06 15:59:59 UTC)),
        (sunday, datetime!(2026-06-06 12:00 +2), datetime!(2026-06-07 22:00 UTC)),
        (sunday, datetime!(2026-06-06 23:59:59 +2), datetime!(2026-06-07 22:00 UTC)),
    ] {
        let question = question(received, strom, change_day);
        assert_eq!(due(&question), to_host(expected), "{question}");
    }
}

/// Found apart in the same way. The window of 29 March 2026 is 29 hours long, that of 25 October 31.
#[test]
fn a_window_with_a_switch_is_an_hour_shorter_or_longer() {
    for (change_day, first, midnight, hours) in [
        (
            Date::new(2026, 3, 28),
            datetime!(2026-03-27 11:00 UTC),
            datetime!(2026-03-28 23:00 UTC),
            30,
        ),
        (
            Date::new(2026, 3, 29),
            datetime!(2026-03-28 11:00 UTC),
            datetime!(2026-03-29 22:00 UTC),
            29,
        ),
        (
            Date::new(2026, 3, 30),
            datetime!(2026-03-29 10:00 UTC),
            datetime!(2026-03-30 22:00 UTC),
            30,
        ),
        (
            Date::new(2026, 10, 25),
            datetime!(2026-10-24 10:00 UTC),
            datetime!(2026-10-25 23:00 UTC),
            31,
        ),
    ] {
        let (midnight, six) = (to_host(midnight), 6 * HOUR);
        let first = question(first, Regelfall, change_day);
        let received = |by| Question { instant: moved(first.instant, by), ..first };
        assert_eq!(due(&received(-1)), moved(first.instant, six - 1), "{first}");
        assert_eq!(due(&first), midnight, "{first}");
        assert_eq!(due(&received(hours * HOUR - 1)), midnight, "{first}");
        assert_eq!(due(&received(hours * HOUR)), midnight, "{first}");
        assert_eq!(due(&received(hours * HOUR + 1)), moved(midnight, 1), "{first}");
    }
}

/// "8 also where the day before or after the change day leaves the calendar", whatever is due; and the
/// windows beside. The first instant is 1 January 1996 00:00 in Berlin.
#[test]
fn by_both_edges() {
    let middle = datetime!(2026-06-06 10:00 UTC);
    let number = |received, change_day| answer(&question(received, Regelfall, change_day)).number();
    for received in [
        datetime!(1995-12-31 23:00 UTC),
        middle,
        datetime!(2899-12-31 16:59:59.999999999 UTC),
        datetime!(2899-12-31 17:00 UTC),
    ] {
        assert_eq!([Date::FIRST, Date::LAST].map(|day| number(received, day)), [8, 8]);
    }
    let (second, last_but_one) = (Date::new(1996, 1, 2), Date::new(2899, 12, 30));
    for (change_day, received, expected) in [
        (second, datetime!(1995-12-31 23:00 UTC), datetime!(1996-01-01 05:00 UTC)),
        (second, datetime!(1996-01-01 10:59:59 UTC), datetime!(1996-01-01 16:59:59 UTC)),
        (second, datetime!(1996-01-01 11:00 UTC), datetime!(1996-01-02 23:00 UTC)),
        (last_but_one, datetime!(2899-12-29 10:59:59 UTC), datetime!(2899-12-29 16:59:59 UTC)),
        (last_but_one, datetime!(2899-12-29 11:00 UTC), datetime!(2899-12-30 23:00 UTC)),
        (last_but_one, datetime!(2899-12-31 16:59:59 UTC), datetime!(2899-12-31 22:59:59 UTC)),
    ] {
        let question = question(received, Regelfall, change_day);
        assert_eq!(due(&question), to_host(expected), "{question}");
    }
    assert_eq!(number(datetime!(2899-12-31 17:00 UTC), last_but_one), 8);
    assert_eq!(number(datetime!(2899-12-31 17:00 UTC), second), 8);
}

/// "3 for the change day, before 4": each refusal goes before those behind it.
#[test]
fn refusals_come_in_their_order() {
    let (none, edge, outside) = (Date::new(2026, 2, 29), Date::LAST, Instant::new(i64::MAX, 0));
    let late = Instant::LAST;
    for (number, code, date, instant) in [
        (2, 3, none, outside),
        (2, 255, edge, late),
        (3, 0, none, outside),
        (3, 0, none, late),
        (4, 0, edge, outside),
        (4, 0, Date::FIRST, outside),
        (8, 0, edge, late),
        (8, 0, Date::new(2026, 4, 1), late),
        (0, 2, Date::new(2026, 4, 1), Instant::FIRST),
    ] {
        let question = Question { date, ..Question::at(Call::ContrlDueAtChange, instant) };
        let question = question.with_code(code);
        assert_eq!(answer(&question).number(), number, "{question}");
        let mut short = [7; Answer::LEN - 1];
        assert_eq!((question.ask(&mut short), short), (1, [7; Answer::LEN - 1]), "{question}");
    }
}

/// "With change day 1 April or 1 October of the due instant's year, both versions agree wherever the due
/// instant before tolerance lies inside that window", and outside of both. A window has 30 hours in each
/// year, 60 instants by the half hour, and in the other one of the year they differ.
#[test]
fn versions_differ_in_the_other_window_alone() {
    const EACH: i64 = 60;
    const BESIDE: i64 = 48;
    let years = TOLERANCE_ENDS.len() / 4;
    assert_eq!(years, 904);
    let mut differ = 0;
    for (window, ends) in TOLERANCE_ENDS.chunks_exact(2).enumerate() {
        let year = Date::FIRST.year + (window / 2) as u16;
        let of_the_year = [4, 10].map(|month| Date::new(year, month, 1));
        for half_hours in -BESIDE..EACH + BESIDE {
            let before = moved(ends[0], half_hours * HOUR / 2);
            let received = moved(before, -6 * HOUR);
            let one = due(&Question::at(Call::ContrlDueAt, received));
            let two = of_the_year.map(|date| {
                let question = Question { date, ..Question::at(Call::ContrlDueAtChange, received) };
                due(&question)
            });
            let inside = (0..EACH).contains(&half_hours);
            assert_eq!(one, if inside { ends[1] } else { before }, "{year} {received}");
            assert_eq!(two[window % 2], one, "{year} {received}");
            assert_eq!(two[1 - window % 2], before, "{year} {received}");
            differ += usize::from(two[1 - window % 2] != one);
        }
    }
    assert_eq!(differ, 2 * years * EACH as usize);
}

/// Each Anlass moved by its window and left where it is, in windows of each length, and every refusal.
#[test]
fn the_replay_list_has_windows_of_every_kind() {
    /// Seconds from a receipt to its due instant before the tolerance.
    const LEADS: [&[i64]; 3] = [&[6 * 3600], &[15 * 60, 6 * 3600], &[45 * 60]];
    let replayed = replayed(Call::ContrlDueAtChange);
    let (mut met, mut lengths, mut refused) = (HashSet::new(), HashSet::new(), HashSet::new());
    for (question, answer) in &replayed {
        if answer.number() != 0 {
            refused.insert((answer.number(), question.date));
            continue;
        }
        let ends = tolerance_ends(days::given(question.date).expect("a change day"));
        let hours = (ends[1].seconds - ends[0].seconds) / 3600;
        let by = answer.instant().seconds - question.instant.seconds;
        let moved = !LEADS[usize::from(question.code)].contains(&by);
        met.insert((question.code, moved));
        lengths.insert((hours, moved));
    }
    assert_eq!((replayed.len(), met.len(), lengths.len()), (200, 6, 6), "{met:?} {lengths:?}");
    let numbers: HashSet<u8> = refused.iter().map(|&(number, _)| number).collect();
    assert_eq!(numbers, HashSet::from([2, 3, 4, 8]));
    assert!([Date::FIRST, Date::LAST].into_iter().all(|date| refused.contains(&(8, date))));
}
