//! Where the original's answer is not document 01's, or not what its own comments say, each with
//! its smallest input. `original.rs` turns the former into the refusals 6 and 8. If one of them
//! changes, that module has to be read again.

use mako_fristen::antwort::FristShape;
use mako_fristen::vorlauf::{VorlaufShape, VorlaufVerdict};
use mako_fristen::HolidayCalendar::BdewMaKo;
use mako_fristen_host::{Call, Clock, Date, Instant, Question};
use std::panic::{catch_unwind, UnwindSafe};
use time::macros::{date, datetime, time};

fn panics<T>(original: impl FnOnce() -> T + UnwindSafe) -> bool {
    catch_unwind(original).is_err()
}

fn expected(question: &Question) -> u8 {
    harness::original::expected(question).expect("no unknown panic").number()
}

/// The year 10000 or -10000 is none of the date type, and the date comes back unshifted.
#[test]
fn a_month_shift_past_the_date_type_is_no_shift() {
    let (first, last) = (date!(1996 - 01 - 01), date!(2899 - 12 - 31));
    assert_eq!(mako_fristen::add_months(last, 85_200), date!(9999 - 12 - 31));
    assert_eq!(mako_fristen::add_months(last, 85_201), last);
    assert_eq!(mako_fristen::subtract_months(first, 143_940), date!(-9999 - 01 - 01));
    assert_eq!(mako_fristen::subtract_months(first, 143_941), first);
    for (call, date, n) in [
        (Call::AddMonths, Date::LAST, 85_201),
        (Call::SubtractMonths, Date::FIRST, 143_941),
        (Call::AddMonths, Date::LAST, u32::MAX),
    ] {
        let question = Question::on(call, date).with_count(n);
        assert_eq!(expected(&question), 8, "{question}");
    }
}

/// From February on, a count of 2,147,483,647 or more overflows the sum of months: a panic in a
/// debug build, no shift in a release build.
#[test]
fn a_month_shift_can_overflow() {
    let february = date!(1996 - 02 - 01);
    let shifted = catch_unwind(|| mako_fristen::add_months(february, i32::MAX as u32));
    if cfg!(debug_assertions) {
        assert!(shifted.is_err());
    } else {
        assert_eq!(shifted.ok(), Some(february));
    }
}

/// Outside of this calendar: the last day of the date type, and, against the comment on the Easter
/// algorithm, dates before the year 0.
#[test]
fn steps_and_day_tests_can_panic() {
    assert!(panics(|| mako_fristen::add_werktage(date!(9999 - 12 - 31), 1, BdewMaKo)));
    assert!(panics(|| mako_fristen::next_werktag(date!(9999 - 12 - 31), BdewMaKo)));
    assert!(panics(|| mako_fristen::is_werktag(date!(-0002 - 12 - 30), BdewMaKo)));
    assert!(!panics(|| mako_fristen::is_werktag(date!(-0001 - 01 - 01), BdewMaKo)));
}

/// 02:00 up to 03:00 on the last Sunday of March; 31 March 1996 is the first.
#[test]
fn an_absent_local_time_is_a_panic() {
    let sunday = date!(1996 - 03 - 31);
    for (at, absent) in [
        (time!(1:59:59.999999999), false),
        (time!(2:00), true),
        (time!(2:59:59.999999999), true),
        (time!(3:00), false),
    ] {
        assert_eq!(panics(|| mako_fristen::berlin_at(sunday, at)), absent, "{at}");
    }
    let two = Clock::new(2, 0, 0, 0);
    let question = Question::on(Call::BerlinAt, Date::new(1996, 3, 31)).with_clock(two);
    assert_eq!(expected(&question), 6);
}

/// It reads its clock on the receipt day first, also if that is a Sunday, on which nothing is due.
#[test]
fn same_day_at_an_absent_time_is_a_panic() {
    let two = FristShape::SameDayAt(time!(2:00));
    for (received, absent) in [
        (datetime!(1996-03-30 22:59:59.999999999 UTC), false),
        (datetime!(1996-03-30 23:00 UTC), true),
        (datetime!(1996-03-31 21:59:59.999999999 UTC), true),
        (datetime!(1996-03-31 22:00 UTC), false),
    ] {
        assert_eq!(panics(|| two.due_at(received, BdewMaKo)), absent, "{received}");
    }
    let sunday = harness::instants::to_host(datetime!(1996-03-30 23:00 UTC));
    let two = Clock::new(2, 0, 0, 0);
    let question = Question::at(Call::FristDueAt, sunday).with_code(2).with_clock(two);
    assert_eq!(expected(&question), 6);
}

/// The first hour past the year 9999, from the calendar's last instant.
#[test]
fn hours_past_the_date_type_are_a_panic() {
    let last = datetime!(2899-12-31 22:59:59.999999999 UTC);
    let to_9999 = mako_fristen::add_hours(last, 62_237_305);
    assert_eq!(to_9999, datetime!(9999-12-31 23:59:59.999999999 UTC));
    assert!(panics(|| mako_fristen::add_hours(last, 62_237_306)));
    for hours in [1, 62_237_305, 62_237_306, u32::MAX] {
        let question = Question::at(Call::AddHours, Instant::LAST).with_count(hours);
        assert_eq!(expected(&question), 8, "{question}");
    }
}

/// So many months before the anchor would be past the year -9999, and the anchor comes back as the
/// latest day, on which the notice of that same day is Ok.
#[test]
fn a_vorlauf_in_months_past_the_date_type_is_kept() {
    const MONTHS: u32 = 143_941;
    let first = date!(1996 - 01 - 01);
    let check = |n| VorlaufShape::LatestMonateBefore(n).check(first, first, BdewMaKo);
    assert!(panics(|| check(MONTHS - 1)), "it counts Werktage from the year -9999 on");
    assert_eq!(check(MONTHS), VorlaufVerdict::Ok);
    let shape = VorlaufShape::LatestMonateUndWerktageBefore { monate: MONTHS, werktage: 0 };
    assert_eq!(shape.check(first, first, BdewMaKo), VorlaufVerdict::Ok);
    for code in [6, 7] {
        let question = Question::on(Call::VorlaufCheck, Date::FIRST)
            .with_second(Date::FIRST)
            .with_code(code)
            .with_count(MONTHS);
        assert_eq!(expected(&question), 8, "{question}");
    }
}

/// "The next date that would satisfy it" is not accepted: from a day that is no Werktag, by the
/// shapes that look back at the anchor, where the month was cut.
#[test]
fn the_earliest_possible_date_may_be_too_late_as_well() {
    let shapes = [
        (VorlaufShape::LatestWerktageBefore(1), date!(2026 - 01 - 10), date!(2026 - 01 - 12)),
        (VorlaufShape::LatestWerktageAfter(1), date!(2026 - 01 - 08), date!(2026 - 01 - 06)),
        (VorlaufShape::Korridor(1), date!(2026 - 01 - 08), date!(2026 - 01 - 06)),
        (VorlaufShape::LatestMonateBefore(1), date!(2026 - 01 - 31), date!(2026 - 02 - 28)),
    ];
    for (shape, day, anchor) in shapes {
        let VorlaufVerdict::TooLate { earliest_possible, .. } = shape.check(day, anchor, BdewMaKo)
        else {
            panic!("{shape:?} accepts {anchor}");
        };
        assert!(!shape.check(day, earliest_possible, BdewMaKo).is_ok(), "{shape:?}");
    }
}

/// From a Friday, one Werktag before: the Monday is named, and the Saturday is accepted.
#[test]
fn the_earliest_possible_date_may_be_later_than_the_first() {
    let shape = VorlaufShape::LatestWerktageBefore(1);
    let check = |anchor| shape.check(date!(2026 - 01 - 09), anchor, BdewMaKo);
    let earliest_possible = date!(2026 - 01 - 12);
    let named = VorlaufVerdict::TooLate { shortfall_wt: 1, earliest_possible };
    assert_eq!(check(date!(2026 - 01 - 09)), named);
    assert_eq!(check(date!(2026 - 01 - 10)), VorlaufVerdict::Ok);
}
