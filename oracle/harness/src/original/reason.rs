//! Why a day is closed, in document 02's numbers. The original only tells whether a day is one of its
//! holidays, so here the entries of its own list are asked one by one.

use crate::days::{self, DAYS};
use mako_fristen::holidays::{buss_und_bettag, easter_sunday, is_fixed, is_holiday, OFFSETS};
use mako_fristen::HolidayCalendar::BdewMaKo;
use std::collections::{BTreeMap, BTreeSet};
use std::iter;
use std::sync::LazyLock;
use time::Weekday::{Saturday, Sunday};
use time::{Date, Duration};

const WERKTAG: u8 = 0;
const SATURDAY: u8 = 1;
const SUNDAY: u8 = 2;
const FIRST_HOLIDAY: u8 = 3;

/// The reason: the weekend goes before a holiday, and the lower number before the higher.
///
/// # Panics
///
/// Where the original's own answers are not the same: whether the day is a Werktag, and whether it is
/// a holiday.
pub(super) fn of_day(date: Date) -> u8 {
    let holiday = holidays(date).next();
    let reason = weekend(date).or(holiday).unwrap_or(WERKTAG);
    let (open, listed) = (mako_fristen::is_werktag(date, BdewMaKo), is_holiday(date));
    assert_eq!(reason == WERKTAG, open, "{date} gets {reason}; is it a Werktag?");
    assert_eq!(holiday.is_some(), listed, "{date} is {holiday:?} of the list; is it a holiday?");
    reason
}

fn weekend(date: Date) -> Option<u8> {
    match date.weekday() {
        Saturday => Some(SATURDAY),
        Sunday => Some(SUNDAY),
        _ => None,
    }
}

/// The numbers of all holidays that the date is, also on a weekend: the fixed days, Buß- und Bettag,
/// then those by Easter, as document 01 has them.
fn holidays(date: Date) -> impl Iterator<Item = u8> {
    let (year, day) = (date.year(), (date.month().into(), date.day()));
    let fixed = FIXED.iter().map(move |&fixed| fixed == day);
    let wednesday = iter::once_with(move || buss_und_bettag(year) == date);
    let easter = easter_sunday(year);
    let moved = OFFSETS.iter().map(move |&offset| easter + Duration::days(offset) == date);
    let entries = fixed.chain(wednesday).chain(moved);
    (FIRST_HOLIDAY..).zip(entries).filter_map(|(number, is_it)| is_it.then_some(number))
}

/// Month and day of the fixed days, in the order of the year, which is document 01's. That there are
/// others than its thirteen and its six offsets would give the holidays other numbers.
static FIXED: LazyLock<Vec<(u8, u8)>> = LazyLock::new(|| {
    let days = (1..=12).flat_map(|month| (1..=31).map(move |day| (month, day)));
    let fixed: Vec<(u8, u8)> = days.filter(|&(month, day)| is_fixed(month, day)).collect();
    assert_eq!((fixed.len(), OFFSETS.len()), (13, 6), "the original's list has other entries");
    fixed
});

/// The days of the calendar, by their indexes, in sets: those of one have the same holidays, if any,
/// and are all weekdays, Saturdays or Sundays.
pub static ALIKE: LazyLock<Vec<Vec<u32>>> = LazyLock::new(|| {
    let mut sets: BTreeMap<_, Vec<u32>> = BTreeMap::new();
    for index in 0..DAYS {
        let date = days::day(index);
        let holidays: Vec<u8> = holidays(date).collect();
        sets.entry((weekend(date), holidays)).or_default().push(index);
    }
    sets.into_values().collect()
});

/// Of each set the first day and the last, and those that come earliest and latest in a year; both
/// edges of the calendar are among them.
pub static ENDS: LazyLock<Vec<u32>> = LazyLock::new(|| {
    let in_year = |&&index: &&u32| {
        let date = days::day(index);
        (u8::from(date.month()), date.day())
    };
    let ends = |set: &'static Vec<u32>| {
        let (earliest, latest) = (set.iter().min_by_key(in_year), set.iter().max_by_key(in_year));
        [set.first(), set.last(), earliest, latest].into_iter().flatten()
    };
    let different: BTreeSet<u32> = ALIKE.iter().flat_map(ends).copied().collect();
    different.into_iter().collect()
});
