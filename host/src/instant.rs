//! An instant: its numbers, its text, the system's time of it, and what a clock in UTC shows.

use crate::clock::{hour_and_minute, seconds};
use crate::text::{number, Text};
use crate::{Clock, Date, Refusal};
use std::str::FromStr;
use std::time::{Duration, SystemTime, UNIX_EPOCH};
use std::{error, fmt};

const NANOS_OF_A_SECOND: u32 = 1_000_000_000;
const SECONDS_IN_A_DAY: i64 = 86_400;

/// An instant as the host calls take and give it: whole seconds since 1970-01-01T00:00Z, and
/// nanoseconds. Any two numbers are allowed here: the calls refuse what is no instant of a Berlin
/// day from 1 January 1996 to 31 December 2899. The `Instant` of the standard library is another: it
/// has no date.
///
/// A service has the receipt from its clock:
///
/// ```
/// use mako_fristen_host::{add_hours, Instant};
/// use std::time::SystemTime;
///
/// let received = Instant::from(SystemTime::now());
/// assert!(add_hours(received, 6)? > received);
/// # Ok::<(), mako_fristen_host::Error>(())
/// ```
#[derive(Clone, Copy, Debug, Default, PartialEq, Eq, PartialOrd, Ord, Hash)]
pub struct Instant {
    /// Whole seconds, of any sign.
    pub seconds: i64,
    /// Nanoseconds after the whole second, 0 to 999,999,999, before 1970 too.
    pub nanos: u32,
}

impl Instant {
    /// The first instant that the calls take: 1 January 1996, 00:00 in Berlin.
    pub const FIRST: Instant = Instant::new(820_450_800, 0);
    /// The last instant that the calls take, the end of 31 December 2899 in Berlin.
    pub const LAST: Instant = Instant::new(29_348_002_799, 999_999_999);

    /// The instant of these two numbers, whatever they are: `Instant::new(0, 0)` is a value that the
    /// calls refuse.
    #[must_use]
    pub const fn new(seconds: i64, nanos: u32) -> Instant {
        Instant { seconds, nanos }
    }

    /// Whether the calls take it: from [`FIRST`](Instant::FIRST) to [`LAST`](Instant::LAST), with
    /// nanoseconds of one second.
    ///
    /// ```
    /// use mako_fristen_host::Instant;
    ///
    /// assert!(Instant::LAST.is_in_calendar());
    /// assert!(!Instant::new(Instant::LAST.seconds + 1, 0).is_in_calendar());
    /// assert!(!Instant::new(1_775_080_800, 1_000_000_000).is_in_calendar());
    /// ```
    #[must_use]
    pub fn is_in_calendar(self) -> bool {
        let seconds = Instant::FIRST.seconds..=Instant::LAST.seconds;
        seconds.contains(&self.seconds) && self.nanos < NANOS_OF_A_SECOND
    }

    /// What a clock in UTC shows; none if the year is not from 0 to 65535. Nanoseconds stay as they
    /// are, be they those of one second or not.
    ///
    /// ```
    /// use mako_fristen_host::{Clock, Date, Instant};
    ///
    /// let shown = (Date::new(2026, 4, 1), Clock::new(22, 0, 0, 5));
    /// assert_eq!(Instant::new(1_775_080_800, 5).utc(), Some(shown));
    /// assert_eq!(Instant::new(i64::MAX, 0).utc(), None);
    /// ```
    #[must_use]
    pub fn utc(self) -> Option<(Date, Clock)> {
        let date = Date::of_day_number(self.seconds.div_euclid(SECONDS_IN_A_DAY))?;
        let second = self.seconds.rem_euclid(SECONDS_IN_A_DAY);
        let part = |number: i64| u8::try_from(number).ok();
        let (hour, minute) = (part(second / 3600)?, part(second / 60 % 60)?);
        Some((date, Clock::new(hour, minute, part(second % 60)?, self.nanos)))
    }

    /// The instant at which a clock in UTC shows `at` on `date`; none if `date` is no date. An hour
    /// over 23 runs on into the next day.
    ///
    /// ```
    /// use mako_fristen_host::{Clock, Date, Instant};
    ///
    /// let ten = Clock::new(22, 0, 0, 0);
    /// let of = |day| Instant::of_utc(Date::new(2026, 4, day), ten);
    /// assert_eq!((of(1), of(31)), (Some(Instant::new(1_775_080_800, 0)), None));
    /// ```
    #[must_use]
    pub fn of_utc(date: Date, at: Clock) -> Option<Instant> {
        let Clock { hour, minute, second, nanos } = at;
        let of_day = i64::from(hour) * 3600 + i64::from(minute) * 60 + i64::from(second);
        Some(Instant::new(date.day_number()? * SECONDS_IN_A_DAY + of_day, nanos))
    }

    /// So many seconds later, or earlier; none beyond 64 bits.
    ///
    /// ```
    /// use mako_fristen_host::Instant;
    ///
    /// assert_eq!(Instant::new(0, 5).plus_seconds(-1), Some(Instant::new(-1, 5)));
    /// assert_eq!(Instant::new(i64::MAX, 0).plus_seconds(1), None);
    /// ```
    #[must_use]
    pub fn plus_seconds(self, seconds: i64) -> Option<Instant> {
        Some(Instant::new(self.seconds.checked_add(seconds)?, self.nanos))
    }
}

/// Every system time is an instant; whether the calls take it is theirs to say. A time that 64 bits
/// of seconds cannot count, which no system has today, becomes the outermost second.
///
/// ```
/// use mako_fristen_host::Instant;
/// use std::time::{Duration, UNIX_EPOCH};
///
/// let second_of_april = UNIX_EPOCH + Duration::from_secs(1_775_080_800);
/// assert_eq!(Instant::from(second_of_april), Instant::new(1_775_080_800, 0));
/// let before_1970 = UNIX_EPOCH - Duration::from_nanos(1);
/// assert_eq!(Instant::from(before_1970), Instant::new(-1, 999_999_999));
/// ```
impl From<SystemTime> for Instant {
    fn from(time: SystemTime) -> Instant {
        match time.duration_since(UNIX_EPOCH) {
            Ok(after) => {
                let seconds = 0_i64.saturating_add_unsigned(after.as_secs());
                Instant::new(seconds, after.subsec_nanos())
            }
            Err(error) => before_1970(error.duration()),
        }
    }
}

/// Nanoseconds count forward from the whole second below.
fn before_1970(before: Duration) -> Instant {
    match before.subsec_nanos() {
        0 => Instant::new(0_i64.saturating_sub_unsigned(before.as_secs()), 0),
        nanos => {
            let seconds = (-1_i64).saturating_sub_unsigned(before.as_secs());
            Instant::new(seconds, NANOS_OF_A_SECOND - nanos)
        }
    }
}

/// For a timer or a log. [`Refusal::InstantOutside`] is for nanoseconds over 999,999,999 and for
/// seconds that the system cannot hold; an instant from [`Instant::FIRST`] to [`Instant::LAST`] has
/// a system time wherever seconds have 64 bits.
///
/// ```
/// use mako_fristen_host::{Instant, Refusal};
/// use std::time::{Duration, SystemTime, UNIX_EPOCH};
///
/// let due = SystemTime::try_from(Instant::new(1_775_080_800, 5));
/// assert_eq!(due, Ok(UNIX_EPOCH + Duration::new(1_775_080_800, 5)));
/// let none = SystemTime::try_from(Instant::new(0, 1_000_000_000));
/// assert_eq!(none, Err(Refusal::InstantOutside));
/// ```
impl TryFrom<Instant> for SystemTime {
    type Error = Refusal;

    fn try_from(Instant { seconds, nanos }: Instant) -> Result<SystemTime, Refusal> {
        if nanos >= NANOS_OF_A_SECOND {
            return Err(Refusal::InstantOutside);
        }
        let whole = Duration::from_secs(seconds.unsigned_abs());
        let second =
            if seconds < 0 { UNIX_EPOCH.checked_sub(whole) } else { UNIX_EPOCH.checked_add(whole) };
        let time = second.and_then(|second| second.checked_add(Duration::new(0, nanos)));
        time.ok_or(Refusal::InstantOutside)
    }
}

/// As `1775080800 s 0 ns`: seconds since 1970 in UTC, and nanoseconds.
impl fmt::Display for Instant {
    fn fmt(&self, f: &mut fmt::Formatter<'_>) -> fmt::Result {
        write!(f, "{} s {} ns", self.seconds, self.nanos)
    }
}

/// RFC 3339 with an offset or `Z`, and up to nine digits of a second; `@` and seconds since 1970,
/// with a decimal fraction of up to nine digits or none; or the two numbers of the host calls as they
/// are, each with its unit, the nanoseconds of any 32 bits.
///
/// ```
/// use mako_fristen_host::{Instant, InstantError};
///
/// let due = Instant::new(1_774_972_799, 0);
/// assert_eq!("2026-03-31T17:59:59+02:00".parse(), Ok(due));
/// assert_eq!("@1774972799".parse(), Ok(due));
/// assert_eq!("@-1.5".parse(), Ok(Instant::new(-2, 500_000_000)));
/// assert_eq!("@1774972799s5ns".parse(), Ok(Instant::new(1_774_972_799, 5)));
/// assert_eq!("2026-02-30T00:00:00Z".parse::<Instant>(), Err(InstantError::Date));
/// ```
impl FromStr for Instant {
    type Err = InstantError;

    fn from_str(text: &str) -> Result<Instant, InstantError> {
        match text.strip_prefix('@') {
            Some(numbers) => {
                of_numbers(numbers).or_else(|| of_seconds(numbers)).ok_or(InstantError::Form)
            }
            None => Text::whole(text, Stamp::read).ok_or(InstantError::Form)?.instant(),
        }
    }
}

/// `1774972799s5ns`
fn of_numbers(text: &str) -> Option<Instant> {
    let (seconds, nanos) = text.strip_suffix("ns")?.split_once('s')?;
    Some(Instant::new(whole(seconds)?, number(nanos)?))
}

/// `-1.5`; nanoseconds count forward from the whole second below.
fn of_seconds(text: &str) -> Option<Instant> {
    let Some((seconds, _)) = text.split_once('.') else {
        return Some(Instant::new(whole(text)?, 0));
    };
    let nanos = Text::whole(&text[seconds.len()..], |text| text.fraction())?;
    match (seconds.starts_with('-'), nanos) {
        (true, 1..) => {
            Some(Instant::new(whole(seconds)?.checked_sub(1)?, NANOS_OF_A_SECOND - nanos))
        }
        _ => Some(Instant::new(whole(seconds)?, nanos)),
    }
}

fn whole(text: &str) -> Option<i64> {
    let digits = text.strip_prefix('-').unwrap_or(text);
    number::<u64>(digits)?;
    text.parse().ok()
}

/// The parts of RFC 3339, before they are looked at.
struct Stamp {
    date: Date,
    clock: Clock,
    west: bool,
    /// Hours and minutes.
    offset: (u8, u8),
}

impl Stamp {
    fn read(text: &mut Text) -> Option<Stamp> {
        let date = Date::read(text)?;
        text.one_of(b"Tt ")?;
        let (hour, minute) = hour_and_minute(text)?;
        let (second, nanos) = seconds(text)?;
        let mark = text.one_of(b"Zz+-")?;
        let offset = if matches!(mark, b'+' | b'-') { hour_and_minute(text)? } else { (0, 0) };
        let clock = Clock::new(hour, minute, second, nanos);
        Some(Stamp { date, clock, west: mark == b'-', offset })
    }

    fn instant(&self) -> Result<Instant, InstantError> {
        let Clock { hour, minute, second, .. } = self.clock;
        let shown = Instant::of_utc(self.date, self.clock).ok_or(InstantError::Date)?;
        if hour > 23 || minute > 59 || second > 59 {
            return Err(InstantError::Clock);
        }
        let (hours, minutes) = self.offset;
        if hours > 23 || minutes > 59 {
            return Err(InstantError::Offset);
        }
        let east = i64::from(hours) * 3600 + i64::from(minutes) * 60;
        shown.plus_seconds(if self.west { east } else { -east }).ok_or(InstantError::Form)
    }
}

/// Why a text is no instant.
#[derive(Clone, Copy, Debug, PartialEq, Eq)]
pub enum InstantError {
    /// Neither RFC 3339 nor `@seconds`.
    Form,
    /// There is no such day.
    Date,
    /// An hour over 23, a minute or second over 59; a leap second too.
    Clock,
    /// An offset over 23:59.
    Offset,
}

impl fmt::Display for InstantError {
    fn fmt(&self, f: &mut fmt::Formatter<'_>) -> fmt::Result {
        f.write_str(match self {
            InstantError::Form => {
                "expected an instant like 2026-03-31T11:59:59+02:00, with Z or an offset and up to \
                 nine digits of a second, or @seconds since 1970"
            }
            InstantError::Date => "expected a day of the Gregorian calendar",
            InstantError::Clock => "expected an hour up to 23, a minute and a second up to 59",
            InstantError::Offset => "expected an offset up to 23:59",
        })
    }
}

impl error::Error for InstantError {}
