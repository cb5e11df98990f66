//! The dates of the calendar, 1 January 1996 to 31 December 2899, in the original's date type.

use mako_fristen_host::{Date, Refusal};
use time::macros::date;
use time::{Duration, Month};

const FIRST: time::Date = date!(1996 - 01 - 01);
const LAST: time::Date = date!(2899 - 12 - 31);
const DAY_0: time::Date = date!(1970 - 01 - 01);

/// How many days the calendar has.
pub const DAYS: u32 = (LAST.to_julian_day() - FIRST.to_julian_day() + 1) as u32;

/// The day of an index from 0, the calendar's first; the last day for an index beyond.
#[must_use]
pub fn day(index: u32) -> time::Date {
    let julian = FIRST.to_julian_day() + index.min(DAYS - 1) as i32;
    time::Date::from_julian_day(julian).expect("a day of the calendar")
}

#[must_use]
pub fn index(day: time::Date) -> u32 {
    (day.to_julian_day() - FIRST.to_julian_day()) as u32
}

/// The day so many days after 1 January 1970, if the calendar has it.
#[must_use]
pub fn numbered(number: u32) -> Option<time::Date> {
    let day = DAY_0.checked_add(Duration::days(number.into()))?;
    (FIRST..=LAST).contains(&day).then_some(day)
}

/// How many days after 1 January 1970 the day of an index lies.
#[must_use]
pub fn number(index: u32) -> u32 {
    (day(index) - DAY_0).whole_days() as u32
}

/// How many days of the calendar come after.
#[must_use]
pub fn left(day: time::Date) -> u32 {
    DAYS - 1 - index(day)
}

/// The next day, unless it leaves the calendar: refusal 8.
///
/// # Errors
///
/// [`Refusal::LeavesCalendar`].
pub fn after(day: time::Date) -> Result<time::Date, Refusal> {
    day.next_day().filter(|&next| next <= LAST).ok_or(Refusal::LeavesCalendar)
}

/// The previous day, unless it leaves the calendar: refusal 8.
///
/// # Errors
///
/// [`Refusal::LeavesCalendar`].
pub fn before(day: time::Date) -> Result<time::Date, Refusal> {
    day.previous_day().filter(|&previous| previous >= FIRST).ok_or(Refusal::LeavesCalendar)
}

/// The host's form of a date, if the calendar has it.
#[must_use]
pub fn to_host(day: time::Date) -> Option<Date> {
    let year = u16::try_from(day.year()).ok()?;
    (FIRST..=LAST).contains(&day).then(|| Date::new(year, day.month().into(), day.day()))
}

/// The host's form of the day of an index.
#[must_use]
pub fn date(index: u32) -> Date {
    to_host(day(index)).expect("a day of the calendar")
}

/// A date that the host gives, unless it is none of the calendar: refusal 3.
///
/// # Errors
///
/// [`Refusal::NoDate`].
pub fn given(date: Date) -> Result<time::Date, Refusal> {
    let month = Month::try_from(date.month).map_err(|_| Refusal::NoDate)?;
    let day = time::Date::from_calendar_date(date.year.into(), month, date.day);
    day.ok().filter(|day| (FIRST..=LAST).contains(day)).ok_or(Refusal::NoDate)
}

#[cfg(test)]
mod tests {
    use super::{day, number, numbered, DAYS};
    use time::macros::date;

    #[test]
    fn days_are_numbered_from_1970_on() {
        assert_eq!((number(0), number(DAYS - 1)), (9496, 339_675));
        assert_eq!(numbered(9496), Some(date!(1996 - 01 - 01)));
        assert_eq!(numbered(339_675), Some(date!(2899 - 12 - 31)));
        assert_eq!(numbered(20_545), Some(date!(2026 - 04 - 02)));
        assert!((0..DAYS).step_by(1000).all(|index| numbered(number(index)) == Some(day(index))));
        let outside = [0, 9495, 339_676, i32::MAX as u32, 1 << 31, u32::MAX - 1, u32::MAX];
        assert_eq!(outside.map(numbered), [None; 7]);
    }
}
