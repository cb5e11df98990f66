//! A date: its numbers, its text, its place in the Gregorian calendar. No rule of document 01 stands
//! here but the range: what a Werktag is, the calls say.

use crate::text::Text;
use crate::Weekday;
use std::str::FromStr;
use std::{error, fmt};

const DAYS_IN_400_YEARS: i64 = 146_097;
/// From 1 March of year 0, where the leap day ends a year, to 1 January 1970.
const DAYS_BEFORE_1970: i64 = 719_468;

/// A date as the host calls take and give it. Any three numbers are allowed here: the calls refuse
/// what is no date from 1 January 1996 to 31 December 2899.
#[derive(Clone, Copy, Debug, Default, PartialEq, Eq, PartialOrd, Ord, Hash)]
pub struct Date {
    /// 1996 to 2899.
    pub year: u16,
    /// 1 to 12.
    pub month: u8,
    /// From 1 to the month's last.
    pub day: u8,
}

impl Date {
    /// The first date that the calls take.
    pub const FIRST: Date = Date::new(1996, 1, 1);
    /// The last date that the calls take.
    pub const LAST: Date = Date::new(2899, 12, 31);
    /// The days from 1 January 1970 to [`FIRST`](Date::FIRST).
    ///
    /// ```
    /// use mako_fristen_host::Date;
    ///
    /// assert_eq!(Date::of_day_number(Date::FIRST_DAY.into()), Some(Date::FIRST));
    /// ```
    pub const FIRST_DAY: u32 = 9_496;
    /// The days from 1 January 1970 to [`LAST`](Date::LAST).
    ///
    /// ```
    /// use mako_fristen_host::Date;
    ///
    /// assert_eq!(Date::of_day_number(Date::LAST_DAY.into()), Some(Date::LAST));
    /// ```
    pub const LAST_DAY: u32 = 339_675;

    /// The date of these three numbers, whatever they are: `Date::new(2026, 2, 29)` is a value that
    /// the calls refuse.
    #[must_use]
    pub const fn new(year: u16, month: u8, day: u8) -> Date {
        Date { year, month, day }
    }

    /// The four bytes of a date in a question and in an answer: year in two, month, day. Three
    /// numbers that are no date have theirs as well.
    ///
    /// ```
    /// use mako_fristen_host::Date;
    ///
    /// assert_eq!(Date::new(2026, 4, 7).to_bytes(), [0xea, 0x07, 4, 7]);
    /// ```
    #[must_use]
    pub const fn to_bytes(self) -> [u8; 4] {
        let [low, high] = self.year.to_le_bytes();
        [low, high, self.month, self.day]
    }

    /// The inverse of [`to_bytes`](Date::to_bytes), for any four bytes.
    ///
    /// ```
    /// use mako_fristen_host::Date;
    ///
    /// assert_eq!(Date::from_bytes([0xea, 0x07, 4, 7]), Date::new(2026, 4, 7));
    /// ```
    #[must_use]
    pub const fn from_bytes([low, high, month, day]: [u8; 4]) -> Date {
        Date::new(u16::from_le_bytes([low, high]), month, day)
    }

    /// Whether the calls take it: a date, and from [`FIRST`](Date::FIRST) to [`LAST`](Date::LAST).
    ///
    /// ```
    /// use mako_fristen_host::Date;
    ///
    /// assert!(Date::new(2024, 2, 29).is_in_calendar());
    /// assert!(!Date::new(2026, 2, 29).is_in_calendar());
    /// assert!(!Date::new(2900, 1, 1).is_in_calendar());
    /// ```
    #[must_use]
    pub fn is_in_calendar(self) -> bool {
        self.is_date() && (Date::FIRST..=Date::LAST).contains(&self)
    }

    fn is_date(self) -> bool {
        self.day >= 1 && self.day <= month_length(self.year, self.month)
    }

    /// Days since 1 January 1970, fewer than 0 before it; none if the three numbers are no date.
    ///
    /// ```
    /// use mako_fristen_host::Date;
    ///
    /// assert_eq!(Date::new(1970, 1, 1).day_number(), Some(0));
    /// assert_eq!(Date::new(1969, 12, 31).day_number(), Some(-1));
    /// assert_eq!(Date::new(2026, 2, 29).day_number(), None);
    /// ```
    #[must_use]
    pub fn day_number(self) -> Option<i64> {
        if !self.is_date() {
            return None;
        }
        let (month, day) = (i64::from(self.month), i64::from(self.day));
        let year = i64::from(self.year) - i64::from(month <= 2);
        let years = year.rem_euclid(400);
        let months = if month > 2 { month - 3 } else { month + 9 };
        let days = years * 365 + years / 4 - years / 100 + (153 * months + 2) / 5 + day - 1;
        Some(year.div_euclid(400) * DAYS_IN_400_YEARS + days - DAYS_BEFORE_1970)
    }

    /// The inverse of [`day_number`](Date::day_number); none if the year is not from 0 to 65535.
    ///
    /// ```
    /// use mako_fristen_host::Date;
    ///
    /// assert_eq!(Date::of_day_number(20_545), Some(Date::new(2026, 4, 2)));
    /// assert_eq!(Date::of_day_number(i64::MAX), None);
    /// ```
    #[must_use]
    pub fn of_day_number(number: i64) -> Option<Date> {
        let number = number.checked_add(DAYS_BEFORE_1970)?;
        let days = number.rem_euclid(DAYS_IN_400_YEARS);
        let years = (days - days / 1_460 + days / 36_524 - days / 146_096) / 365;
        let day = days - (years * 365 + years / 4 - years / 100);
        let months = (5 * day + 2) / 153;
        let month = if months < 10 { months + 3 } else { months - 9 };
        let year = number.div_euclid(DAYS_IN_400_YEARS) * 400 + years + i64::from(month <= 2);
        Some(Date::new(
            u16::try_from(year).ok()?,
            u8::try_from(month).ok()?,
            u8::try_from(day - (153 * months + 2) / 5 + 1).ok()?,
        ))
    }

    /// The [`day_number`](Date::day_number) as the lists of a portfolio have it, from
    /// [`FIRST_DAY`](Date::FIRST_DAY) to [`LAST_DAY`](Date::LAST_DAY); none if the calls do not take
    /// the date.
    ///
    /// ```
    /// use mako_fristen_host::Date;
    ///
    /// assert_eq!(Date::new(2026, 4, 2).calendar_day(), Some(20_545));
    /// assert_eq!(Date::FIRST.calendar_day(), Some(Date::FIRST_DAY));
    /// assert_eq!(Date::LAST.calendar_day(), Some(Date::LAST_DAY));
    /// assert_eq!(Date::new(1995, 12, 31).calendar_day(), None);
    /// assert_eq!(Date::new(2026, 2, 29).calendar_day(), None);
    /// ```
    #[must_use]
    pub fn calendar_day(self) -> Option<u32> {
        let day = u32::try_from(self.day_number()?).ok()?;
        Some(day).filter(|day| (Date::FIRST_DAY..=Date::LAST_DAY).contains(day))
    }

    /// The inverse of [`calendar_day`](Date::calendar_day); none if the day is out of range.
    ///
    /// ```
    /// use mako_fristen_host::Date;
    ///
    /// assert_eq!(Date::of_calendar_day(20_545), Some(Date::new(2026, 4, 2)));
    /// assert_eq!(Date::of_calendar_day(Date::LAST_DAY), Some(Date::LAST));
    /// assert_eq!(Date::of_calendar_day(Date::LAST_DAY + 1), None);
    /// ```
    #[must_use]
    pub fn of_calendar_day(day: u32) -> Option<Date> {
        let in_range = (Date::FIRST_DAY..=Date::LAST_DAY).contains(&day);
        Date::of_day_number(day.into()).filter(|_| in_range)
    }

    /// So many days later, or earlier; none if there is no such date, or if this is none.
    ///
    /// ```
    /// use mako_fristen_host::Date;
    ///
    /// assert_eq!(Date::new(2026, 2, 28).plus_days(1), Some(Date::new(2026, 3, 1)));
    /// assert_eq!(Date::new(2026, 2, 29).plus_days(1), None);
    /// ```
    #[must_use]
    pub fn plus_days(self, days: i64) -> Option<Date> {
        Date::of_day_number(self.day_number()?.checked_add(days)?)
    }

    /// The day of the week; none if the three numbers are no date.
    ///
    /// ```
    /// use mako_fristen_host::{Date, Weekday};
    ///
    /// assert_eq!(Date::new(2026, 4, 2).weekday(), Some(Weekday::Donnerstag));
    /// assert_eq!(Date::new(2026, 2, 29).weekday(), None);
    /// ```
    #[must_use]
    pub fn weekday(self) -> Option<Weekday> {
        // 1 January 1970 was a Thursday.
        let place = (self.day_number()? + 3).rem_euclid(7);
        Weekday::ALL.get(usize::try_from(place).ok()?).copied()
    }

    /// From the front of a text.
    pub(crate) fn read(text: &mut Text) -> Option<Date> {
        let year = text.digits(4)?;
        text.one_of(b"-")?;
        let month = text.digits(2)?;
        text.one_of(b"-")?;
        Some(Date::new(year, month, text.digits(2)?))
    }
}

/// How many days a month has; 0 if there is no such month.
fn month_length(year: u16, month: u8) -> u8 {
    match month {
        1 | 3 | 5 | 7 | 8 | 10 | 12 => 31,
        4 | 6 | 9 | 11 => 30,
        2 if year % 4 == 0 && (year % 100 != 0 || year % 400 == 0) => 29,
        2 => 28,
        _ => 0,
    }
}

/// As ISO 8601 writes it: `2026-04-03`.
impl fmt::Display for Date {
    fn fmt(&self, f: &mut fmt::Formatter<'_>) -> fmt::Result {
        write!(f, "{:04}-{:02}-{:02}", self.year, self.month, self.day)
    }
}

/// `2026-04-02`. Any digits are taken: the calls refuse what is no date of the calendar.
///
/// ```
/// use mako_fristen_host::{is_werktag, Date, DateError, Refusal};
///
/// assert_eq!("2026-04-02".parse(), Ok(Date::new(2026, 4, 2)));
/// let leap_day: Date = "2026-02-29".parse()?;
/// assert_eq!(is_werktag(leap_day), Err(Refusal::NoDate.into()));
/// assert_eq!("2.4.2026".parse::<Date>(), Err(DateError));
/// # Ok::<(), DateError>(())
/// ```
impl FromStr for Date {
    type Err = DateError;

    fn from_str(text: &str) -> Result<Date, DateError> {
        Text::whole(text, Date::read).ok_or(DateError)
    }
}

/// The text is not four digits, two and two, with hyphens.
#[derive(Clone, Copy, Debug, PartialEq, Eq)]
pub struct DateError;

impl fmt::Display for DateError {
    fn fmt(&self, f: &mut fmt::Formatter<'_>) -> fmt::Result {
        f.write_str("expected a date like 2026-04-02")
    }
}

impl error::Error for DateError {}
