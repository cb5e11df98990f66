//! The change day of a CONTRL, document 02's F-7: its window to the nanosecond, about every day of a
//! year, about both switches and at the edges of the calendar; the refusals; version one beside it.
//! Expected instants are document 02's, or those of Python's zoneinfo.

mod utc;

use mako_fristen_host::{
    contrl_due_at, contrl_due_at_change, Answer, Call, Content, ContrlAnlass, Date, Error, Instant,
    Parameter, Question, Refusal,
};
use utc::utc;
use ContrlAnlass::{GasAlocat, Regelfall, StromUtilmdOderOrders};

const HOUR: i64 = 3_600;
const DAY: i64 = 24 * HOUR;

/// A Saturday. The window runs from Friday 16:00 UTC to Saturday 22:00 UTC.
const CHANGE_DAY: Date = Date::new(2026, 6, 6);

const LEAVES: Result<Instant, Error> = Err(Error::Refused(Refusal::LeavesCalendar));

fn day_number(date: Date) -> i64 {
    date.day_number().expect("a date")
}

/// So many hours after the midnight in UTC with which the day of this number begins.
fn on_day(number: i64, hours: i64) -> Instant {
    Instant::new(number * DAY + hours * HOUR, 0)
}

fn earlier(instant: Instant, seconds: i64) -> Instant {
    instant.plus_seconds(-seconds).expect("an instant")
}

fn nanosecond_before(instant: Instant) -> Instant {
    Instant::new(instant.seconds - 1, 999_999_999)
}

fn nanosecond_after(instant: Instant) -> Instant {
    Instant::new(instant.seconds, instant.nanos + 1)
}

/// The due instant of what is due at `before` without a window. 45 minutes run on any day.
fn put_off(before: Instant, change_day: Date) -> Result<Instant, Error> {
    contrl_due_at_change(earlier(before, 45 * 60), GasAlocat, change_day)
}

/// The same by version one.
fn by_version_one(before: Instant) -> Result<Instant, Error> {
    contrl_due_at(earlier(before, 45 * 60), GasAlocat)
}

/// The rule, in its words.
fn read_plainly(before: Instant, (from, to): (Instant, Instant)) -> Instant {
    if from <= before && before < to {
        to
    } else {
        before
    }
}

/// The call gives each second instant for its first.
fn gives(anlass: ContrlAnlass, cases: &[(&str, &str)]) {
    for (received, due) in cases {
        let found = contrl_due_at_change(utc(received), anlass, CHANGE_DAY);
        assert_eq!(found, Ok(utc(due)), "received {received}");
    }
}

#[test]
fn the_window_to_the_nanosecond() {
    gives(
        Regelfall,
        &[
            ("2026-06-05T09:59:59.999999999Z", "2026-06-05T15:59:59.999999999Z"),
            ("2026-06-05T10:00:00Z", "2026-06-06T22:00:00Z"),
            ("2026-06-05T10:00:00.000000001Z", "2026-06-06T22:00:00Z"),
            ("2026-06-06T15:59:59.999999999Z", "2026-06-06T22:00:00Z"),
            ("2026-06-06T16:00:00Z", "2026-06-06T22:00:00Z"),
            ("2026-06-06T16:00:00.000000001Z", "2026-06-06T22:00:00.000000001Z"),
        ],
    );
    gives(
        GasAlocat,
        &[
            ("2026-06-05T15:14:59.999999999Z", "2026-06-05T15:59:59.999999999Z"),
            ("2026-06-05T15:15:00Z", "2026-06-06T22:00:00Z"),
            ("2026-06-06T21:14:59.999999999Z", "2026-06-06T22:00:00Z"),
            ("2026-06-06T21:15:00Z", "2026-06-06T22:00:00Z"),
            ("2026-06-06T21:15:00.000000001Z", "2026-06-06T22:00:00.000000001Z"),
            ("2026-06-06T21:59:59Z", "2026-06-06T22:44:59Z"),
        ],
    );
}

/// The change day is the Saturday: it begins Friday 22:00 UTC, and from then on it is 6 hours.
#[test]
fn the_saturday_is_that_of_the_receipt() {
    gives(
        StromUtilmdOderOrders,
        &[
            ("2026-06-05T15:44:59.999999999Z", "2026-06-05T15:59:59.999999999Z"),
            ("2026-06-05T15:45:00Z", "2026-06-06T22:00:00Z"),
            ("2026-06-05T21:59:59.999999999Z", "2026-06-06T22:00:00Z"),
            ("2026-06-06T15:59:59.999999999Z", "2026-06-06T22:00:00Z"),
            ("2026-06-06T16:00:00.000000001Z", "2026-06-06T22:00:00.000000001Z"),
            ("2026-06-06T21:59:59Z", "2026-06-07T03:59:59Z"),
            ("2026-06-06T22:00:00Z", "2026-06-06T22:15:00Z"),
        ],
    );
}

/// The window of a change day in 2026, whose summer time is from 29 March 01:00 UTC to 25 October
/// 01:00 UTC: no end of a window lies between 00:00 and 03:00 of a switch.
fn window(change_day: Date) -> (Instant, Instant) {
    let summer = day_number(Date::new(2026, 3, 29))..day_number(Date::new(2026, 10, 25));
    let day = day_number(change_day);
    let from = if summer.contains(&(day - 1)) { 16 } else { 17 };
    let to = if summer.contains(&day) { 22 } else { 23 };
    (on_day(day - 1, from), on_day(day, to))
}

/// Every quarter of an hour from three days before to three days after, and the ends to the
/// nanosecond.
#[test]
fn every_day_of_a_year_as_change_day() {
    let first = day_number(Date::new(2026, 1, 1));
    for number in first..first + 365 {
        let change_day = Date::of_day_number(number).expect("a date");
        let (from, to) = window(change_day);
        let quarters = (-3 * 96..4 * 96)
            .map(|quarter| Instant::new(number * DAY + quarter * 15 * 60, 0))
            .chain(
                [from, to]
                    .into_iter()
                    .flat_map(|end| [nanosecond_before(end), end, nanosecond_after(end)]),
            );
        let mut moved = 0;
        for before in quarters {
            let expected = read_plainly(before, (from, to));
            assert_eq!(put_off(before, change_day), Ok(expected), "{change_day}: {before}");
            moved += u32::from(expected != before);
        }
        // The quarters of 30 hours, of 29 and 31 at the switches; and three instants at the ends.
        let hours = ((to.seconds - from.seconds) / HOUR) as u32;
        assert_eq!(moved, hours * 4 + 3, "{change_day}");
    }
}

/// On the Sundays of the switches the window is an hour shorter and longer; on the days beside them
/// it is not.
#[test]
fn the_window_about_the_switches() {
    let windows = [
        ((3, 28), "2026-03-27T17:00:00Z", "2026-03-28T23:00:00Z", 30),
        ((3, 29), "2026-03-28T17:00:00Z", "2026-03-29T22:00:00Z", 29),
        ((3, 30), "2026-03-29T16:00:00Z", "2026-03-30T22:00:00Z", 30),
        ((10, 24), "2026-10-23T16:00:00Z", "2026-10-24T22:00:00Z", 30),
        ((10, 25), "2026-10-24T16:00:00Z", "2026-10-25T23:00:00Z", 31),
        ((10, 26), "2026-10-25T17:00:00Z", "2026-10-26T23:00:00Z", 30),
    ];
    for ((month, day), from, to, hours) in windows {
        let (change_day, from, to) = (Date::new(2026, month, day), utc(from), utc(to));
        assert_eq!(to.seconds - from.seconds, hours * HOUR, "{change_day}");
        assert_eq!(window(change_day), (from, to), "{change_day}");
        for (before, due) in [
            (nanosecond_before(from), nanosecond_before(from)),
            (from, to),
            (nanosecond_before(to), to),
            (to, to),
            (nanosecond_after(to), nanosecond_after(to)),
        ] {
            assert_eq!(put_off(before, change_day), Ok(due), "{change_day}: {before}");
        }
    }
}

/// The second day of the calendar and the last but one have both their neighbours in it.
#[test]
fn the_first_and_the_last_change_day() {
    let (second, last_but_one) = (Date::new(1996, 1, 2), Date::new(2899, 12, 30));
    for (change_day, from, to) in [
        (second, "1996-01-01T17:00:00Z", "1996-01-02T23:00:00Z"),
        (last_but_one, "2899-12-29T17:00:00Z", "2899-12-30T23:00:00Z"),
    ] {
        let (from, to) = (utc(from), utc(to));
        assert_eq!(put_off(nanosecond_before(from), change_day), Ok(nanosecond_before(from)));
        assert_eq!(put_off(from, change_day), Ok(to));
        assert_eq!(put_off(nanosecond_before(to), change_day), Ok(to));
        assert_eq!(put_off(nanosecond_after(to), change_day), Ok(nanosecond_after(to)));
        for anlass in ContrlAnlass::ALL {
            let due = contrl_due_at_change(Instant::FIRST, anlass, change_day);
            assert_eq!(due, contrl_due_at(Instant::FIRST, anlass), "{change_day} {anlass:?}");
            assert_eq!(contrl_due_at_change(Instant::LAST, anlass, change_day), LEAVES);
        }
        assert_eq!(put_off(Instant::LAST, change_day), Ok(Instant::LAST));
        assert_eq!(put_off(nanosecond_after_the_last(), change_day), LEAVES);
    }
}

fn nanosecond_after_the_last() -> Instant {
    Instant::new(Instant::LAST.seconds + 1, 0)
}

/// Whatever the due instant is: near the change day, far from it, or outside the calendar.
#[test]
fn a_change_day_without_a_day_before_or_after_is_refused() {
    let instants = [
        Instant::FIRST,
        utc("1996-01-01T16:00:00Z"),
        utc("1996-01-01T23:00:00Z"),
        utc("2026-06-05T10:00:00Z"),
        utc("2899-12-30T11:00:00Z"),
        utc("2899-12-31T10:00:00Z"),
        Instant::LAST,
    ];
    for change_day in [Date::FIRST, Date::LAST] {
        for received in instants {
            for anlass in ContrlAnlass::ALL {
                let due = contrl_due_at_change(received, anlass, change_day);
                assert_eq!(due, LEAVES, "{change_day}: {received} {anlass:?}");
            }
        }
    }
}

fn question(code: u8, received: Instant, change_day: Date) -> Question {
    let question = Question::at(Call::ContrlDueAtChange, received).with_code(code);
    Question { date: change_day, ..question }
}

/// 2, 3, 4, 8: each stands before those that follow, and 1 before all of them.
#[test]
fn refusals_in_their_order() {
    let (no_date, no_instant) = (Date::new(2026, 2, 29), Instant::new(i64::MIN, 0));
    let noon = utc("2026-06-05T10:00:00Z");
    let rows = [
        (question(3, no_instant, no_date), Some(Refusal::UnknownCode)),
        (question(255, Instant::LAST, Date::LAST), Some(Refusal::UnknownCode)),
        (question(0, no_instant, no_date), Some(Refusal::NoDate)),
        (question(0, Instant::LAST, no_date), Some(Refusal::NoDate)),
        (question(0, no_instant, Date::FIRST), Some(Refusal::InstantOutside)),
        (question(0, no_instant, Date::LAST), Some(Refusal::InstantOutside)),
        (question(0, no_instant, CHANGE_DAY), Some(Refusal::InstantOutside)),
        (question(0, noon, Date::FIRST), Some(Refusal::LeavesCalendar)),
        (question(0, noon, Date::LAST), Some(Refusal::LeavesCalendar)),
        (question(0, Instant::LAST, CHANGE_DAY), Some(Refusal::LeavesCalendar)),
        (question(0, noon, CHANGE_DAY), None),
    ];
    for (question, refusal) in rows {
        let due = Answer::default().with_instant(utc("2026-06-06T22:00:00Z"));
        let expected = refusal.map_or(due, Answer::refused);
        for fill in [0x00, 0xa5] {
            for len in (0..=70).filter(|&len| len != Answer::LEN) {
                let mut answer = vec![fill; len];
                assert_eq!(question.ask(&mut answer), 1, "{question}, {len} bytes");
                assert_eq!(answer, vec![fill; len], "{question}, {len} bytes");
            }
            let mut answer = [fill; Answer::LEN];
            assert_eq!(question.ask(&mut answer), expected.number(), "{question}");
            assert_eq!(Answer::from_bytes(answer), expected, "{question}");
        }
    }
}

/// Every quarter of an hour of a year. With 1 April version two has the spring window and leaves what
/// is due in the autumn one where it is; with 1 October it is the other way round.
#[test]
fn version_one_beside_it() {
    let spring = (utc("2026-03-31T16:00:00Z"), utc("2026-04-01T22:00:00Z"));
    let autumn = (utc("2026-09-30T16:00:00Z"), utc("2026-10-01T22:00:00Z"));
    let (april, october) = (Date::new(2026, 4, 1), Date::new(2026, 10, 1));
    let (mut agree, mut differ) = (0, 0);
    for quarter in 0..365 * 96 {
        let before = Instant::new(utc("2026-01-01T00:00:00Z").seconds + quarter * 15 * 60, 7);
        let (in_spring, in_autumn) = (read_plainly(before, spring), read_plainly(before, autumn));
        let (one, in_april) = (by_version_one(before), put_off(before, april));
        let in_october = put_off(before, october);
        assert_eq!(in_april, Ok(in_spring), "{before}");
        assert_eq!(in_october, Ok(in_autumn), "{before}");
        let (of_spring, of_autumn) = (in_spring != before, in_autumn != before);
        assert_eq!(in_april == one, !of_autumn, "{before}");
        assert_eq!(in_october == one, !of_spring, "{before}");
        agree += u32::from(in_april == one && in_october == one);
        differ += u32::from(in_april != one || in_october != one);
    }
    // Two windows of 30 hours.
    assert_eq!((agree, differ), (365 * 96 - 2 * 120, 2 * 120));
}

/// Of every year: both change days are in summer time, and both windows begin 16:00 UTC.
#[test]
fn both_versions_agree_in_the_window_of_each_year() {
    for year in 1996..2900 {
        for month in [4, 10] {
            let change_day = Date::new(year, month, 1);
            let day = day_number(change_day);
            let (from, noon, to) = (on_day(day - 1, 16), on_day(day, 10), on_day(day, 22));
            for before in [from, nanosecond_after(from), noon, nanosecond_before(to), to] {
                assert_eq!(put_off(before, change_day), Ok(to), "{change_day}: {before}");
                assert_eq!(by_version_one(before), Ok(to), "{change_day}: {before}");
            }
            for outside in [nanosecond_before(from), nanosecond_after(to)] {
                assert_eq!(put_off(outside, change_day), Ok(outside), "{change_day}");
                assert_eq!(by_version_one(outside), Ok(outside), "{change_day}");
            }
            // The window of a year is not that of another.
            let another = Date::new(if year == 1996 { 1997 } else { year - 1 }, month, 1);
            assert_eq!(put_off(from, another), Ok(from), "{another}: {from}");
        }
    }
}

/// Every receipt, not only that of 45 minutes: where no window is near, both versions are the same.
#[test]
fn far_from_any_window_both_versions_are_the_same() {
    let first = utc("2026-06-09T00:00:00Z").seconds;
    for quarter in 0..14 * 96 {
        let received = Instant::new(first + quarter * 15 * 60, 999_999_999);
        for anlass in ContrlAnlass::ALL {
            let due = contrl_due_at_change(received, anlass, CHANGE_DAY);
            assert!(due.is_ok());
            assert_eq!(due, contrl_due_at(received, anlass), "{received} {anlass:?}");
        }
    }
}

/// Behind all others, so that a stored question keeps its number; and a question has room for it.
#[test]
fn the_call_is_the_last_one() {
    let call = Call::ContrlDueAtChange;
    assert_eq!(Call::ALL.last(), Some(&call));
    assert_eq!(call.number(), Call::EogAnkuendigungFristgerecht.number() + 1);
    assert_eq!(call.parameters(), [Parameter::Instant, Parameter::Anlass, Parameter::Date]);
    assert_eq!((call.codes(), call.content()), (Some(3), Content::Instant));
    let question = question(2, Instant::new(1_780_653_600, 7), CHANGE_DAY);
    let written = "mf_contrl_due_at_change(1780653600 s 7 ns, 2, 2026-06-06)";
    assert_eq!(question.to_string(), written);
    let bytes = question.to_bytes();
    assert_eq!(bytes[..8], [call.number(), 2, 0, 0, 0xea, 0x07, 6, 6]);
    assert_eq!(bytes[8..16], [0; 8]);
    assert_eq!(bytes[16..28], [0x20, 0x9e, 0x22, 0x6a, 0, 0, 0, 0, 7, 0, 0, 0]);
    assert_eq!(bytes[28..], [0; 36]);
}
