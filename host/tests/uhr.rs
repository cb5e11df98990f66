//! Berlin's clock: the cases J and K of document 01, both switches, the beginnings of days, and
//! both edges. Expected values are document 01's, the worked examples of the original's comments,
//! or those of Python's zoneinfo.

mod utc;

use mako_fristen_host::{
    berlin_at, berlin_date, berlin_midnight, end_of_day_berlin, tag_des_beginns, tagesbeginn_utc,
    Clock, Date, Error, Instant, Refusal, Sparte,
};
use utc::utc;

const LAST_NANO: u32 = 999_999_999;

const fn date(year: u16, month: u8, day: u8) -> Date {
    Date::new(year, month, day)
}

const fn clock(hour: u8, minute: u8, second: u8) -> Clock {
    Clock::new(hour, minute, second, 0)
}

#[test]
fn the_instants_of_these_tests_are_pythons() {
    let instants = [
        ("1970-01-01T00:00:00Z", 0),
        ("1995-12-31T23:00:00Z", 820_450_800),
        ("2000-02-29T12:00:00Z", 951_825_600),
        ("2026-03-31T10:00:00Z", 1_774_951_200),
        ("2100-03-01T00:00:00Z", 4_107_542_400),
        ("2899-12-31T22:59:59Z", 29_348_002_799),
    ];
    for (text, seconds) in instants {
        assert_eq!(utc(text), Instant::new(seconds, 0), "{text}");
    }
    assert_eq!(utc("1970-01-01T00:00:01.000000007Z"), Instant::new(1, 7));
    assert_eq!(utc("2899-12-31T22:59:59.999999999Z"), Instant::LAST);
    assert_eq!(utc("1995-12-31T23:00:00Z"), Instant::FIRST);
}

#[test]
fn case_j_29_march_02_30_is_absent() {
    assert_eq!(berlin_at(date(2026, 3, 29), clock(2, 30, 0)), Err(Refusal::LocalTimeAbsent.into()));
}

#[test]
fn case_j_25_october_02_30_is_00_30_utc() {
    let earlier = utc("2026-10-25T00:30:00Z");
    assert_eq!(berlin_at(date(2026, 10, 25), clock(2, 30, 0)), Ok(earlier));
}

#[test]
fn case_k_gas_day_29_march_begins_04_00_utc() {
    let (day, beginning) = (date(2026, 3, 29), utc("2026-03-29T04:00:00Z"));
    assert_eq!(tagesbeginn_utc(day, Sparte::Gas), Ok(beginning));
    assert_eq!(tag_des_beginns(beginning, Sparte::Gas), Ok(day));
}

#[test]
fn the_absent_hour_to_the_nanosecond() {
    let day = date(2026, 3, 29);
    let last_before = utc("2026-03-29T00:59:59.999999999Z");
    assert_eq!(berlin_at(day, Clock::new(1, 59, 59, LAST_NANO)), Ok(last_before));
    assert_eq!(berlin_at(day, clock(2, 0, 0)), Err(Refusal::LocalTimeAbsent.into()));
    let last_absent = Clock::new(2, 59, 59, LAST_NANO);
    assert_eq!(berlin_at(day, last_absent), Err(Refusal::LocalTimeAbsent.into()));
    assert_eq!(berlin_at(day, clock(3, 0, 0)), Ok(utc("2026-03-29T01:00:00Z")));
}

#[test]
fn the_repeated_hour_to_the_nanosecond() {
    let day = date(2026, 10, 25);
    let instants = [
        (Clock::new(1, 59, 59, LAST_NANO), "2026-10-24T23:59:59.999999999Z"),
        (clock(2, 0, 0), "2026-10-25T00:00:00Z"),
        (Clock::new(2, 59, 59, LAST_NANO), "2026-10-25T00:59:59.999999999Z"),
        (clock(3, 0, 0), "2026-10-25T02:00:00Z"),
    ];
    for (at, instant) in instants {
        assert_eq!(berlin_at(day, at), Ok(utc(instant)), "{at}");
    }
}

/// The last Sundays of March and October, which are no others than these days.
#[test]
fn the_switches_of_some_years() {
    let switches = [
        (1996, 31, 27),
        (2000, 26, 29),
        (2024, 31, 27),
        (2025, 30, 26),
        (2037, 29, 25),
        (2038, 28, 31),
        (2100, 28, 31),
        (2400, 26, 29),
        (2899, 29, 25),
    ];
    for (year, march, october) in switches {
        let absent = |day| berlin_at(date(year, 3, day), clock(2, 30, 0)).is_err();
        let days: Vec<u8> = (1..=31).filter(|&day| absent(day)).collect();
        assert_eq!(days, [march], "{year}");
        let hours = |day| {
            let noon = |day| berlin_at(date(year, 10, day), clock(12, 0, 0));
            Ok::<_, Error>((noon(day)?.seconds - noon(day - 1)?.seconds) / 3600)
        };
        let days: Vec<u8> = (2..=31).filter(|&day| hours(day) == Ok(25)).collect();
        assert_eq!(days, [october], "{year}");
    }
}

#[test]
fn the_ends_of_days() {
    let ends = [
        (date(2026, 1, 1), "2025-12-31T23:00:00Z", "2026-01-01T22:59:59.999999999Z"),
        (date(2026, 3, 29), "2026-03-28T23:00:00Z", "2026-03-29T21:59:59.999999999Z"),
        (date(2026, 7, 1), "2026-06-30T22:00:00Z", "2026-07-01T21:59:59.999999999Z"),
        (date(2026, 10, 25), "2026-10-24T22:00:00Z", "2026-10-25T22:59:59.999999999Z"),
        (date(2000, 2, 29), "2000-02-28T23:00:00Z", "2000-02-29T22:59:59.999999999Z"),
    ];
    for (day, midnight, end) in ends {
        assert_eq!(berlin_midnight(day), Ok(utc(midnight)), "{day}");
        assert_eq!(end_of_day_berlin(day), Ok(utc(end)), "{day}");
        assert_eq!(berlin_at(day, Clock::default()), Ok(utc(midnight)), "{day}");
        assert_eq!(berlin_at(day, Clock::new(23, 59, 59, LAST_NANO)), Ok(utc(end)), "{day}");
    }
}

/// The worked examples of the original's comments.
#[test]
fn beginnings_of_days() {
    let beginnings = [
        (date(2027, 1, 1), Sparte::Strom, "2026-12-31T23:00:00Z"),
        (date(2027, 7, 1), Sparte::Strom, "2027-06-30T22:00:00Z"),
        (date(2027, 10, 1), Sparte::Gas, "2027-10-01T04:00:00Z"),
        (date(2021, 6, 1), Sparte::Strom, "2021-05-31T22:00:00Z"),
        (date(2021, 6, 1), Sparte::Gas, "2021-06-01T04:00:00Z"),
        (date(2026, 10, 25), Sparte::Gas, "2026-10-25T05:00:00Z"),
    ];
    for (day, sparte, beginning) in beginnings {
        assert_eq!(tagesbeginn_utc(day, sparte), Ok(utc(beginning)), "{day} {sparte:?}");
        assert_eq!(tag_des_beginns(utc(beginning), sparte), Ok(day), "{day} {sparte:?}");
    }
}

#[test]
fn what_is_no_beginning() {
    let instants = [
        ("2026-12-31T00:00:00Z", Sparte::Strom),
        ("2026-12-31T23:00:00Z", Sparte::Gas),
        ("2026-12-31T05:00:00Z", Sparte::Strom),
        ("2026-12-31T22:00:00Z", Sparte::Strom),
        ("2026-06-30T23:00:00Z", Sparte::Strom),
        ("2026-12-31T23:00:00.000000001Z", Sparte::Strom),
        ("2026-12-31T22:59:59.999999999Z", Sparte::Strom),
        ("2026-12-31T05:00:01Z", Sparte::Gas),
        ("1995-12-31T23:00:00Z", Sparte::Gas),
    ];
    for (instant, sparte) in instants {
        let day = tag_des_beginns(utc(instant), sparte);
        assert_eq!(day, Err(Refusal::NoBeginning.into()), "{instant} {sparte:?}");
    }
}

/// The Berlin day is not the day of UTC.
#[test]
fn the_day_in_berlin() {
    let days = [
        ("2026-01-31T22:59:59.999999999Z", date(2026, 1, 31)),
        ("2026-01-31T23:00:00Z", date(2026, 2, 1)),
        ("2026-06-30T21:59:59Z", date(2026, 6, 30)),
        ("2026-06-30T22:00:00Z", date(2026, 7, 1)),
        ("2026-10-25T21:59:59Z", date(2026, 10, 25)),
        ("2026-10-25T22:30:00Z", date(2026, 10, 25)),
        ("2026-10-25T23:00:00Z", date(2026, 10, 26)),
        ("2024-02-28T23:00:00Z", date(2024, 2, 29)),
        ("2100-02-28T23:00:00Z", date(2100, 3, 1)),
    ];
    for (instant, day) in days {
        assert_eq!(berlin_date(utc(instant)), Ok(day), "{instant}");
    }
}

#[test]
fn both_edges_of_the_calendar() {
    assert_eq!(berlin_midnight(Date::FIRST), Ok(Instant::FIRST));
    assert_eq!(end_of_day_berlin(Date::LAST), Ok(Instant::LAST));
    assert_eq!(berlin_date(Instant::FIRST), Ok(Date::FIRST));
    assert_eq!(berlin_date(Instant::LAST), Ok(Date::LAST));
    assert_eq!(tag_des_beginns(Instant::FIRST, Sparte::Strom), Ok(Date::FIRST));
    let last = utc("2899-12-30T23:00:00Z");
    assert_eq!(tag_des_beginns(last, Sparte::Strom), Ok(Date::LAST));
    let outside = [
        Instant::new(Instant::FIRST.seconds - 1, LAST_NANO),
        Instant::new(Instant::LAST.seconds + 1, 0),
    ];
    for instant in outside {
        assert_eq!(berlin_date(instant), Err(Refusal::InstantOutside.into()), "{instant}");
        for sparte in Sparte::ALL {
            let day = tag_des_beginns(instant, sparte);
            assert_eq!(day, Err(Refusal::InstantOutside.into()), "{instant}");
        }
    }
}

#[test]
fn what_is_no_clock() {
    let clocks = [
        clock(24, 0, 0),
        clock(255, 0, 0),
        clock(0, 60, 0),
        clock(0, 255, 0),
        clock(0, 0, 60),
        clock(0, 0, 255),
        Clock::new(0, 0, 0, 1_000_000_000),
        Clock::new(23, 59, 59, u32::MAX),
        // Absent on that day as well.
        clock(2, 60, 0),
    ];
    for at in clocks {
        assert_eq!(berlin_at(date(2026, 3, 29), at), Err(Refusal::NoClock.into()), "{at}");
    }
    assert!(berlin_at(date(2026, 3, 29), Clock::new(23, 59, 59, LAST_NANO)).is_ok());
}
