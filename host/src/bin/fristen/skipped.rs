//! The days that a step passes over.

use crate::inquiry::Inquiry;
use mako_fristen_host::{day_reason, Call, Date, DayReason, Error, Feiertag, Weekday};

/// From Ostersonntag to Christi Himmelfahrt.
const DAYS_TO_HIMMELFAHRT: i64 = 39;

/// What a day that is no Werktag is called: a holiday by its name, on a weekend too, and the Sunday
/// before Ostermontag, which is none of the list.
#[derive(Clone, Copy, Debug, PartialEq, Eq)]
pub enum Closed {
    Holiday(Feiertag),
    Ostersonntag,
    Samstag,
    Sonntag,
}

impl Closed {
    /// None of a Werktag.
    pub fn on(date: Date) -> Result<Option<Closed>, Error> {
        let weekend = match day_reason(date)? {
            DayReason::Werktag => return Ok(None),
            DayReason::Feiertag(holiday) => return Ok(Some(Closed::Holiday(holiday))),
            DayReason::Samstag => Closed::Samstag,
            DayReason::Sonntag if is_ostersonntag(date)? => Closed::Ostersonntag,
            DayReason::Sonntag => Closed::Sonntag,
        };
        Ok(Some(Feiertag::on(date)?.map_or(weekend, Closed::Holiday)))
    }

    /// What a day is besides, which the day test does not say: what a weekend hides, and the second
    /// of two holidays.
    pub fn also(date: Date, reason: DayReason) -> Result<Option<Closed>, Error> {
        let closed = match reason {
            DayReason::Samstag | DayReason::Sonntag => Closed::on(date)?,
            DayReason::Feiertag(Feiertag::TagDerArbeit) => himmelfahrt(date)?,
            DayReason::Werktag | DayReason::Feiertag(_) => None,
        };
        Ok(closed.filter(|closed| !matches!(closed, Closed::Samstag | Closed::Sonntag)))
    }

    pub fn name(self) -> &'static str {
        match self {
            Closed::Holiday(holiday) => holiday.name(),
            Closed::Ostersonntag => "Ostersonntag",
            Closed::Samstag => "Samstag",
            Closed::Sonntag => "Sonntag",
        }
    }
}

/// Ostermontag is a Monday, so that the day test always names it.
pub fn is_ostersonntag(sunday: Date) -> Result<bool, Error> {
    match sunday.plus_days(1).filter(|monday| monday.is_in_calendar()) {
        Some(monday) => Ok(day_reason(monday)? == DayReason::Feiertag(Feiertag::Ostermontag)),
        None => Ok(false),
    }
}

/// The only holiday that can fall on the day of another: on 1 May, as in 2008.
fn himmelfahrt(date: Date) -> Result<Option<Closed>, Error> {
    let Some(sunday) = date.plus_days(-DAYS_TO_HIMMELFAHRT) else { return Ok(None) };
    let himmelfahrt = Closed::Holiday(Feiertag::ChristiHimmelfahrt);
    Ok(is_ostersonntag(sunday)?.then_some(himmelfahrt))
}

/// The closed days that were passed over.
#[derive(Clone, Debug, Default, PartialEq, Eq)]
pub struct Skipped {
    /// Each kind with how many of it, in their order.
    pub kinds: Vec<(Closed, u32)>,
    /// All of them by the day of the week, whatever else they are.
    pub samstage: u32,
    pub sonntage: u32,
    /// Those on neither, all of them holidays.
    pub others: u32,
}

impl Skipped {
    fn add(&mut self, date: Date, closed: Closed) {
        match self.kinds.iter_mut().find(|(kind, _)| *kind == closed) {
            Some((_, count)) => *count += 1,
            None => self.kinds.push((closed, 1)),
        }
        match date.weekday() {
            Some(Weekday::Samstag) => self.samstage += 1,
            Some(Weekday::Sonntag) => self.sonntage += 1,
            _ => self.others += 1,
        }
    }

    pub fn days(&self) -> u32 {
        self.samstage + self.sonntage + self.others
    }
}

/// What a step by Werktage has passed over. The first Werktag from a date on passes over the date
/// too.
pub fn by(inquiry: &Inquiry, to: Date) -> Result<Skipped, Error> {
    let date = inquiry.question.date;
    let before = date.plus_days(-1).filter(|_| inquiry.call == Call::NextWerktag);
    between(before.unwrap_or(date), to)
}

/// The closed days between two dates, without both.
pub fn between(a: Date, b: Date) -> Result<Skipped, Error> {
    let mut skipped = Skipped::default();
    let inside = |date: &Date| *date < a.max(b);
    let mut next = a.min(b).plus_days(1).filter(inside);
    while let Some(date) = next {
        if let Some(closed) = Closed::on(date)? {
            skipped.add(date, closed);
        }
        next = date.plus_days(1).filter(inside);
    }
    Ok(skipped)
}
