//! A time of day: its numbers and its text.

use crate::text::Text;
use std::str::FromStr;
use std::{error, fmt};

/// A time of day on Berlin's clock. Any four numbers are allowed here: the calls refuse an hour
/// over 23, a minute or second over 59 and nanoseconds over 999,999,999.
#[derive(Clone, Copy, Debug, Default, PartialEq, Eq, PartialOrd, Ord, Hash)]
pub struct Clock {
    /// 0 to 23.
    pub hour: u8,
    /// 0 to 59.
    pub minute: u8,
    /// 0 to 59.
    pub second: u8,
    /// Nanoseconds of the second, 0 to 999,999,999.
    pub nanos: u32,
}

impl Clock {
    /// The clock time of these four numbers, whatever they are: `Clock::new(24, 0, 0, 0)` is a value
    /// that the calls refuse.
    #[must_use]
    pub const fn new(hour: u8, minute: u8, second: u8, nanos: u32) -> Clock {
        Clock { hour, minute, second, nanos }
    }

    /// Whole seconds since midnight, 0 to 86,399, without the fraction; none if the four numbers
    /// are no time of day.
    ///
    /// ```
    /// use mako_fristen_host::Clock;
    ///
    /// assert_eq!(Clock::new(12, 0, 0, 5).second_of_day(), Some(43_200));
    /// assert_eq!(Clock::new(0, 60, 0, 0).second_of_day(), None);
    /// ```
    #[must_use]
    pub fn second_of_day(self) -> Option<u32> {
        let Clock { hour, minute, second, nanos } = self;
        if hour > 23 || minute > 59 || second > 59 || nanos > 999_999_999 {
            return None;
        }
        Some(u32::from(hour) * 3600 + u32::from(minute) * 60 + u32::from(second))
    }

    /// The time so many whole seconds after midnight; none for over 86,399.
    ///
    /// ```
    /// use mako_fristen_host::Clock;
    ///
    /// assert_eq!(Clock::of_second_of_day(43_200), Some(Clock::new(12, 0, 0, 0)));
    /// assert_eq!(Clock::of_second_of_day(86_400), None);
    /// ```
    #[must_use]
    pub fn of_second_of_day(second: u32) -> Option<Clock> {
        let hour = u8::try_from(second / 3600).ok().filter(|hour| *hour < 24)?;
        // Less than 60 each.
        let (minute, second) = ((second / 60 % 60) as u8, (second % 60) as u8);
        Some(Clock::new(hour, minute, second, 0))
    }

    /// As it is read out in German, with seconds and their fraction where they are not zero.
    ///
    /// ```
    /// use mako_fristen_host::Clock;
    ///
    /// assert_eq!(Clock::new(12, 0, 0, 0).uhr(), "12:00 Uhr");
    /// assert_eq!(Clock::new(12, 0, 0, 500_000_000).uhr(), "12:00:00,5 Uhr");
    /// ```
    #[must_use]
    pub fn uhr(self) -> String {
        let Clock { hour, minute, second, nanos } = self;
        match (second, nanos) {
            (0, 0) => format!("{hour:02}:{minute:02} Uhr"),
            (_, 0) => format!("{hour:02}:{minute:02}:{second:02} Uhr"),
            _ => {
                let digits = format!("{nanos:09}");
                format!("{hour:02}:{minute:02}:{second:02},{} Uhr", digits.trim_end_matches('0'))
            }
        }
    }

    fn read(text: &mut Text) -> Option<Clock> {
        let (hour, minute) = hour_and_minute(text)?;
        let (second, nanos) = if text.starts_with(b':') { seconds(text)? } else { (0, 0) };
        Some(Clock::new(hour, minute, second, nanos))
    }
}

pub(crate) fn hour_and_minute(text: &mut Text) -> Option<(u8, u8)> {
    let hour = text.digits(2)?;
    text.one_of(b":")?;
    Some((hour, text.digits(2)?))
}

/// The seconds behind their colon, and the nanoseconds.
pub(crate) fn seconds(text: &mut Text) -> Option<(u8, u32)> {
    text.one_of(b":")?;
    Some((text.digits(2)?, text.fraction()?))
}

/// As ISO 8601 writes it, with nine digits of a second: `12:00:00.000000000`.
impl fmt::Display for Clock {
    fn fmt(&self, f: &mut fmt::Formatter<'_>) -> fmt::Result {
        let Clock { hour, minute, second, nanos } = self;
        write!(f, "{hour:02}:{minute:02}:{second:02}.{nanos:09}")
    }
}

/// `13:00`, `13:00:00` or `13:00:00.5`, with up to nine digits of a second. Any digits are taken:
/// the calls refuse what no clock shows.
///
/// ```
/// use mako_fristen_host::{Clock, ClockError};
///
/// assert_eq!("13:00".parse(), Ok(Clock::new(13, 0, 0, 0)));
/// assert_eq!("13:00:00.5".parse(), Ok(Clock::new(13, 0, 0, 500_000_000)));
/// assert_eq!("1 pm".parse::<Clock>(), Err(ClockError));
/// ```
impl FromStr for Clock {
    type Err = ClockError;

    fn from_str(text: &str) -> Result<Clock, ClockError> {
        Text::whole(text, Clock::read).ok_or(ClockError)
    }
}

/// The text is not two digits and two, with or without two more and a fraction.
#[derive(Clone, Copy, Debug, PartialEq, Eq)]
pub struct ClockError;

impl fmt::Display for ClockError {
    fn fmt(&self, f: &mut fmt::Formatter<'_>) -> fmt::Result {
        f.write_str("expected a clock time like 13:00, 13:00:00 or 13:00:00.5")
    }
}

impl error::Error for ClockError {}
