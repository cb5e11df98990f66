//! The cases A to D of document 01, the corners of the calendar steps, and the days that a count
//! tests (document 02, F-3). Expected values are the documents', the worked examples of the original's
//! comments, or counted by a few lines of Python with dateutil's `easter` and the list of document 01.

use mako_fristen_host::{
    add_months, add_werktage, is_werktag, next_werktag, sub_werktage, subtract_months,
    werktage_between, Date, Error, Refusal, WerktageBetween,
};

/// The Werktage of the whole calendar. The first is 2 January 1996, the last 30 December 2899.
const WERKTAGE_IN_ALL: u32 = 222_031;

const fn date(year: u16, month: u8, day: u8) -> Date {
    Date::new(year, month, day)
}

fn count(from: Date, to: Date) -> Result<u32, Error> {
    werktage_between(from, to).map(|between| between.werktage)
}

#[test]
fn case_a_easter_2026_is_5_april() {
    let closed = [(4, 3), (4, 6), (5, 14), (5, 25), (6, 4)];
    for (month, day) in closed {
        assert_eq!(is_werktag(date(2026, month, day)), Ok(false), "{day}.{month}.");
    }
    let open = [(4, 2), (4, 7), (5, 13), (5, 15), (5, 26), (6, 3), (6, 5)];
    for (month, day) in open {
        assert_eq!(is_werktag(date(2026, month, day)), Ok(true), "{day}.{month}.");
    }
}

#[test]
fn case_b_18_november_2026_is_no_werktag() {
    assert_eq!(is_werktag(date(2026, 11, 18)), Ok(false));
    assert_eq!(is_werktag(date(2026, 11, 17)), Ok(true));
    assert_eq!(is_werktag(date(2026, 11, 19)), Ok(true));
}

#[test]
fn case_c_2_april_2026_plus_1_is_7_april() {
    assert_eq!(add_werktage(date(2026, 4, 2), 1), Ok(date(2026, 4, 7)));
    assert_eq!(sub_werktage(date(2026, 4, 7), 1), Ok(date(2026, 4, 2)));
    assert_eq!(count(date(2026, 4, 2), date(2026, 4, 7)), Ok(1));
}

#[test]
fn case_d_4_april_2026_plus_0_is_4_april() {
    assert_eq!(add_werktage(date(2026, 4, 4), 0), Ok(date(2026, 4, 4)));
    assert_eq!(sub_werktage(date(2026, 4, 4), 0), Ok(date(2026, 4, 4)));
    assert_eq!(next_werktag(date(2026, 4, 4)), Ok(date(2026, 4, 7)));
}

#[test]
fn the_originals_worked_examples() {
    assert_eq!(add_werktage(date(2025, 1, 6), 5), Ok(date(2025, 1, 13)));
    assert_eq!(sub_werktage(date(2025, 1, 13), 5), Ok(date(2025, 1, 3)));
    assert_eq!(count(date(2025, 1, 6), date(2025, 1, 13)), Ok(5));
    assert_eq!(next_werktag(date(2025, 1, 12)), Ok(date(2025, 1, 13)));
    assert_eq!(next_werktag(date(2025, 1, 13)), Ok(date(2025, 1, 13)));
    assert_eq!(add_months(date(2026, 1, 31), 1), Ok(date(2026, 2, 28)));
    assert_eq!(add_months(date(2026, 12, 15), 2), Ok(date(2027, 2, 15)));
}

/// Christmas and New Year, then ordinary months.
#[test]
fn steps_over_christmas_and_longer() {
    let steps = [(1, (2025, 12, 29)), (5, (2026, 1, 7)), (20, (2026, 1, 28)), (61, (2026, 3, 26))];
    for (n, (year, month, day)) in steps {
        assert_eq!(add_werktage(date(2025, 12, 23), n), Ok(date(year, month, day)), "plus {n}");
    }
    let steps = [(1, (2026, 1, 5)), (5, (2025, 12, 23)), (20, (2025, 12, 2)), (61, (2025, 10, 1))];
    for (n, (year, month, day)) in steps {
        assert_eq!(sub_werktage(date(2026, 1, 7), n), Ok(date(year, month, day)), "minus {n}");
    }
}

#[test]
fn between_counts_after_from_up_to_and_with_to() {
    let monday = date(2026, 1, 12);
    let tuesday = date(2026, 1, 13);
    assert_eq!(count(monday, monday), Ok(0));
    assert_eq!(count(monday, tuesday), Ok(1));
    assert_eq!(count(tuesday, monday), Ok(0));
    assert_eq!(count(Date::LAST, Date::FIRST), Ok(0));
    assert_eq!(count(date(2025, 12, 31), date(2026, 12, 31)), Ok(249));
    assert_eq!(count(Date::FIRST, Date::LAST), Ok(WERKTAGE_IN_ALL));
}

/// For each of the two dates, the days from 1 January up to and including it; beside the Werktage.
#[test]
fn a_count_reports_how_many_days_it_tested() {
    #[rustfmt::skip]
    let rows = [
        (date(2026, 4, 2), date(2026, 4, 7), 1, 92 + 97),
        (date(2026, 4, 2), date(2026, 4, 3), 0, 92 + 93),
        (date(1996, 1, 1), date(1996, 1, 2), 1, 1 + 2),
        (date(1996, 1, 1), date(1997, 1, 1), 244, 1 + 1),
        (date(1996, 1, 1), date(2899, 1, 1), 221_782, 1 + 1),
        (date(1999, 12, 31), date(2000, 1, 1), 0, 365 + 1),
        (date(2024, 2, 28), date(2024, 2, 29), 1, 59 + 60),
        (date(2000, 2, 28), date(2000, 3, 1), 2, 59 + 61),
        (date(2100, 2, 28), date(2100, 3, 1), 1, 59 + 60),
        (date(2025, 6, 30), date(2035, 6, 30), 2_457, 181 + 181),
        (date(2023, 12, 31), date(2025, 12, 31), 489, 730),
        (date(2024, 12, 31), date(2027, 12, 31), 742, 731),
        (date(2027, 12, 31), date(2028, 12, 31), 244, 731),
        (date(2024, 12, 31), date(2028, 12, 31), 986, 732),
        (date(1996, 12, 31), date(2896, 12, 31), 221_050, 732),
        (date(2899, 12, 30), Date::LAST, 0, 364 + 365),
        (Date::FIRST, Date::LAST, WERKTAGE_IN_ALL, 366),
    ];
    let nothing = Ok(WerktageBetween { werktage: 0, days_tested: 0 });
    for (from, to, werktage, days_tested) in rows {
        let between = WerktageBetween { werktage, days_tested };
        assert_eq!(werktage_between(from, to), Ok(between), "{from} {to}");
        assert_eq!(werktage_between(to, from), nothing, "{to} {from}");
        assert_eq!(werktage_between(from, from), nothing, "{from}");
        assert_eq!(werktage_between(to, to), nothing, "{to}");
    }
}

#[test]
fn a_count_refuses_either_date() {
    let (thursday, none) = (date(2026, 4, 2), date(2026, 2, 29));
    for (from, to) in [(thursday, none), (none, thursday), (none, none)] {
        assert_eq!(werktage_between(from, to), Err(Refusal::NoDate.into()), "{from} {to}");
    }
}

#[test]
fn steps_over_centuries() {
    #[rustfmt::skip]
    let steps = [
        (date(2026, 4, 2), 249, date(2027, 4, 7)),
        (date(2026, 4, 2), 2_490, date(2036, 5, 26)),
        (date(2026, 4, 2), 20_000, date(2107, 8, 25)),
        (date(2026, 4, 2), 200_000, date(2840, 7, 17)),
        (date(2000, 2, 29), 200_000, date(2814, 6, 30)),
        (Date::FIRST, 200_000, date(2810, 4, 21)),
    ];
    for (from, n, to) in steps {
        assert_eq!(add_werktage(from, n), Ok(to), "{from} plus {n}");
        assert_eq!(count(from, to), Ok(n), "{from} {to}");
    }
    #[rustfmt::skip]
    let steps = [
        (date(2826, 7, 15), 249, date(2825, 7, 9)),
        (date(2826, 7, 15), 2_490, date(2816, 5, 20)),
        (date(2826, 7, 15), 20_000, date(2745, 2, 1)),
        (date(2826, 7, 15), 200_000, date(2012, 3, 14)),
        (date(2850, 3, 1), 200_000, date(2035, 11, 13)),
        (Date::LAST, 200_000, date(2085, 9, 6)),
    ];
    for (from, n, to) in steps {
        assert_eq!(sub_werktage(from, n), Ok(to), "{from} minus {n}");
    }
}

#[test]
fn a_count_of_zero_changes_no_date() {
    for day in [Date::FIRST, Date::LAST, date(2000, 2, 29), date(2026, 12, 25)] {
        for call in [add_werktage, sub_werktage, add_months, subtract_months] {
            assert_eq!(call(day, 0), Ok(day), "{day}");
        }
    }
}

#[test]
fn steps_at_the_upper_edge() {
    assert_eq!(add_werktage(date(2899, 12, 29), 1), Ok(date(2899, 12, 30)));
    assert_eq!(add_werktage(date(2899, 12, 30), 1), Err(Refusal::LeavesCalendar.into()));
    assert_eq!(add_werktage(Date::LAST, 1), Err(Refusal::LeavesCalendar.into()));
    assert_eq!(next_werktag(date(2899, 12, 30)), Ok(date(2899, 12, 30)));
    assert_eq!(next_werktag(Date::LAST), Err(Refusal::LeavesCalendar.into()));
    assert_eq!(add_werktage(Date::FIRST, WERKTAGE_IN_ALL), Ok(date(2899, 12, 30)));
    assert_eq!(add_werktage(Date::FIRST, WERKTAGE_IN_ALL + 1), Err(Refusal::LeavesCalendar.into()));
}

#[test]
fn steps_at_the_lower_edge() {
    assert_eq!(next_werktag(Date::FIRST), Ok(date(1996, 1, 2)));
    assert_eq!(sub_werktage(date(1996, 1, 3), 1), Ok(date(1996, 1, 2)));
    assert_eq!(sub_werktage(date(1996, 1, 2), 1), Err(Refusal::LeavesCalendar.into()));
    assert_eq!(sub_werktage(Date::FIRST, 1), Err(Refusal::LeavesCalendar.into()));
    assert_eq!(sub_werktage(Date::LAST, WERKTAGE_IN_ALL), Ok(date(1996, 1, 2)));
    assert_eq!(sub_werktage(Date::LAST, WERKTAGE_IN_ALL + 1), Err(Refusal::LeavesCalendar.into()));
}

#[test]
fn the_largest_counts_leave_the_calendar() {
    for n in [u32::MAX, u32::MAX - 1, 1 << 31, (1 << 31) - 1] {
        for call in [add_werktage, sub_werktage, add_months, subtract_months] {
            for day in [Date::FIRST, date(2026, 2, 28), Date::LAST] {
                assert_eq!(call(day, n), Err(Refusal::LeavesCalendar.into()), "{day}, {n}");
            }
        }
    }
}
