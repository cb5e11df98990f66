//! Months: a day that the target month lacks becomes its last (BGB §188 Abs. 3). Expected values
//! are the calendar's; a leap year is one of four, but of the hundreds only 2000, 2400 and 2800.

use mako_fristen_host::{add_months, subtract_months, Date, Refusal};

const fn date(year: u16, month: u8, day: u8) -> Date {
    Date::new(year, month, day)
}

#[test]
fn the_31st_falls_to_each_months_last_day() {
    let lasts = [28, 31, 30, 31, 30, 31, 31, 30, 31, 30, 31];
    for (n, last) in (1..).zip(lasts) {
        let month = 1 + n as u8;
        assert_eq!(add_months(date(2026, 1, 31), n), Ok(date(2026, month, last)), "plus {n}");
    }
    let lasts = [30, 31, 30, 31, 31, 30, 31, 30, 31, 28, 31];
    for (n, last) in (1..).zip(lasts) {
        let month = 12 - n as u8;
        assert_eq!(
            subtract_months(date(2026, 12, 31), n),
            Ok(date(2026, month, last)),
            "minus {n}"
        );
    }
}

#[test]
fn february_of_leap_and_common_years() {
    let lasts =
        [(2024, 29), (2025, 28), (2000, 29), (2100, 28), (2400, 29), (2500, 28), (2800, 29)];
    for (year, last) in lasts {
        let february = date(year, 2, last);
        for day in [29, 30, 31] {
            assert_eq!(add_months(date(year, 1, day), 1), Ok(february), "{year} {day}");
            assert_eq!(subtract_months(date(year, 3, day), 1), Ok(february), "{year} {day}");
        }
        assert_eq!(add_months(date(year, 1, 28), 1), Ok(date(year, 2, 28)));
    }
}

#[test]
fn a_cut_day_does_not_come_back() {
    assert_eq!(add_months(date(2024, 2, 29), 12), Ok(date(2025, 2, 28)));
    assert_eq!(add_months(date(2025, 2, 28), 36), Ok(date(2028, 2, 28)));
    assert_eq!(subtract_months(date(2024, 2, 29), 48), Ok(date(2020, 2, 29)));
    assert_eq!(add_months(date(2026, 4, 30), 1), Ok(date(2026, 5, 30)));
}

#[test]
fn the_year_carries_and_borrows() {
    assert_eq!(add_months(date(2026, 12, 31), 1), Ok(date(2027, 1, 31)));
    assert_eq!(subtract_months(date(2026, 1, 31), 1), Ok(date(2025, 12, 31)));
    assert_eq!(subtract_months(date(2026, 1, 31), 2), Ok(date(2025, 11, 30)));
    assert_eq!(add_months(date(2026, 5, 15), 40), Ok(date(2029, 9, 15)));
    assert_eq!(subtract_months(date(2026, 5, 15), 40), Ok(date(2023, 1, 15)));
}

/// The calendar has 904 years, so 10,848 months.
#[test]
fn months_at_both_edges() {
    assert_eq!(add_months(date(2899, 11, 30), 1), Ok(date(2899, 12, 30)));
    assert_eq!(add_months(date(2899, 12, 1), 1), Err(Refusal::LeavesCalendar.into()));
    assert_eq!(subtract_months(date(1996, 2, 29), 1), Ok(date(1996, 1, 29)));
    assert_eq!(subtract_months(date(1996, 1, 31), 1), Err(Refusal::LeavesCalendar.into()));
    assert_eq!(add_months(Date::FIRST, 10_847), Ok(date(2899, 12, 1)));
    assert_eq!(add_months(Date::FIRST, 10_848), Err(Refusal::LeavesCalendar.into()));
    assert_eq!(subtract_months(Date::LAST, 10_847), Ok(date(1996, 1, 31)));
    assert_eq!(subtract_months(Date::LAST, 10_848), Err(Refusal::LeavesCalendar.into()));
}
