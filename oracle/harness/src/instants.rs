//! Instants and clock times in the original's types, and the instants at which its answers change.

use crate::days;
use mako_fristen_host::{Clock, Instant, Refusal};
use std::sync::LazyLock;
use time::{Date, Duration, Month, OffsetDateTime, Time, Weekday};

/// The host's form.
#[must_use]
pub fn to_host(instant: OffsetDateTime) -> Instant {
    Instant::new(instant.unix_timestamp(), instant.nanosecond())
}

#[must_use]
pub fn clock_to_host(at: Time) -> Clock {
    let (hour, minute, second, nanos) = at.as_hms_nano();
    Clock::new(hour, minute, second, nanos)
}

/// An instant that the host gives, unless it lies outside the limits of document 01: refusal 4.
///
/// # Errors
///
/// [`Refusal::InstantOutside`].
pub fn given(instant: Instant) -> Result<OffsetDateTime, Refusal> {
    const SECONDS: std::ops::RangeInclusive<i64> = 820_450_800..=29_348_002_799;
    if !SECONDS.contains(&instant.seconds) || instant.nanos > 999_999_999 {
        return Err(Refusal::InstantOutside);
    }
    let second = OffsetDateTime::from_unix_timestamp(instant.seconds).expect("within the limits");
    Ok(second + Duration::nanoseconds(instant.nanos.into()))
}

/// A clock time that the host gives, unless it is none: refusal 5.
///
/// # Errors
///
/// [`Refusal::NoClock`].
pub fn given_clock(clock: Clock) -> Result<Time, Refusal> {
    let Clock { hour, minute, second, nanos } = clock;
    Time::from_hms_nano(hour, minute, second, nanos).map_err(|_| Refusal::NoClock)
}

/// Later or earlier by nanoseconds.
#[must_use]
pub fn moved(instant: Instant, nanos: i64) -> Instant {
    const SECOND: i64 = 1_000_000_000;
    let nanos = i64::from(instant.nanos) + nanos;
    Instant::new(instant.seconds + nanos.div_euclid(SECOND), nanos.rem_euclid(SECOND) as u32)
}

fn years() -> std::ops::RangeInclusive<i32> {
    days::day(0).year()..=days::day(u32::MAX).year()
}

fn date(year: i32, month: Month, day: u8) -> Date {
    Date::from_calendar_date(year, month, day).expect("a date of every year")
}

/// The days on which the clocks are changed: the last Sundays of March and October.
pub static SWITCH_DAYS: LazyLock<Vec<Date>> = LazyLock::new(|| {
    let last_sunday = |year, month| {
        let mut days = (25..=31).map(|day| date(year, month, day));
        days.find(|day| day.weekday() == Weekday::Sunday).expect("one day of seven")
    };
    let of_year = |year| [Month::March, Month::October].map(|month| last_sunday(year, month));
    years().flat_map(of_year).collect()
});

/// 01:00 UTC of these days.
pub static SWITCHES: LazyLock<Vec<Instant>> = LazyLock::new(|| {
    let switch = |day: &Date| to_host(day.midnight().assume_utc() + Duration::HOUR);
    SWITCH_DAYS.iter().map(switch).collect()
});

/// The ends of the tolerance of a change day: 18:00 of the day before and 00:00 of the day after.
#[must_use]
pub fn tolerance_ends(change_day: Date) -> [Instant; 2] {
    let six = Time::from_hms(18, 0, 0).expect("a clock time");
    let opens = mako_fristen::berlin_at(change_day - Duration::DAY, six);
    let closes = mako_fristen::berlin_midnight(change_day + Duration::DAY);
    [opens, closes].map(to_host)
}

/// Those of every year, with 1 April and 1 October.
pub static TOLERANCE_ENDS: LazyLock<Vec<Instant>> = LazyLock::new(|| {
    let of_year = |year| [Month::April, Month::October].map(|month| date(year, month, 1));
    years().flat_map(of_year).flat_map(tolerance_ends).collect()
});
