//! Europe/Berlin by the rule of Directive 2000/84/EC, in every year: UTC+1, and UTC+2 from the last
//! Sunday of March 01:00 UTC to the last Sunday of October 01:00 UTC. Names are those of `time_tz`.

use time::{Date, Duration, Month, OffsetDateTime, PrimitiveDateTime, UtcOffset};

pub struct Berlin;

pub mod timezones {
    pub mod db {
        pub mod europe {
            pub const BERLIN: &crate::Berlin = &crate::Berlin;
        }
    }
}

pub enum OffsetResult<T> {
    Some(T),
    /// The earlier instant, then the later.
    Ambiguous(T, T),
    None,
}

pub trait OffsetDateTimeExt {
    fn to_timezone(&self, zone: &Berlin) -> OffsetDateTime;
}

pub trait PrimitiveDateTimeExt {
    fn assume_timezone(&self, zone: &Berlin) -> OffsetResult<OffsetDateTime>;
}

impl OffsetDateTimeExt for OffsetDateTime {
    fn to_timezone(&self, _: &Berlin) -> OffsetDateTime {
        self.to_offset(offset_at(*self))
    }
}

impl PrimitiveDateTimeExt for PrimitiveDateTime {
    fn assume_timezone(&self, _: &Berlin) -> OffsetResult<OffsetDateTime> {
        let read_as = |hours| {
            let instant = self.assume_offset(hours_east(hours));
            (offset_at(instant) == instant.offset()).then_some(instant)
        };
        match (read_as(2), read_as(1)) {
            (Some(summer), Some(winter)) => OffsetResult::Ambiguous(summer, winter),
            (Some(only), None) | (None, Some(only)) => OffsetResult::Some(only),
            (None, None) => OffsetResult::None,
        }
    }
}

fn offset_at(instant: OffsetDateTime) -> UtcOffset {
    let utc = instant.to_offset(UtcOffset::UTC);
    let summer = change(utc.year(), Month::March)..change(utc.year(), Month::October);
    hours_east(if summer.contains(&utc) { 2 } else { 1 })
}

/// 01:00 UTC of the last Sunday of a month with 31 days.
fn change(year: i32, month: Month) -> OffsetDateTime {
    let last = Date::from_calendar_date(year, month, 31).expect("a month with 31 days");
    let sunday = last - Duration::days(last.weekday().number_days_from_sunday().into());
    sunday.midnight().assume_utc() + Duration::HOUR
}

fn hours_east(hours: i8) -> UtcOffset {
    UtcOffset::from_hms(hours, 0, 0).expect("one or two hours")
}
