//! The CONTRL with a change day from the caller, which the original does not have. Document 02, F-7:
//! "the window runs from 18:00 of the day before to 00:00 of the day after, and no other window exists
//! in that call". The same words with 1 April and 1 October are the original's rule, and every time it
//! is asked whether they are.

use super::{anlass, due};
use crate::{days, instants};
use mako_fristen::{berlin_midnight, in_berlin};
use mako_fristen_host::{Answer, Question, Refusal};
use time::macros::time;
use time::{Date, Duration, Month, OffsetDateTime, Time, Weekday};

/// When the window opens, on the day before.
const OPENS: Time = time!(18:00);
/// The change days of version one are the first of these.
const MONTHS: [Month; 2] = [Month::April, Month::October];

/// "Checks: 3 for the change day, before 4; 8 also where the day before or after the change day leaves
/// the calendar."
///
/// # Panics
///
/// Where the original's own answer is not the one of 1 April and 1 October.
pub(super) fn contrl_due_at(question: &Question) -> Result<Answer, Refusal> {
    let change_day = days::given(question.date)?;
    let received = instants::given(question.instant)?;
    days::before(change_day)?;
    days::after(change_day)?;
    let at = before_the_tolerance(received, question.code);
    let original = mako_fristen::contrl_due_at(received, anlass(question.code));
    let found = by_version_one(at);
    assert!(found == original, "by version one {found} is found, and the original has {original}");
    due(tolerated(at, change_day))
}

/// Document 01: "6 hours; 45 minutes for `GasAlocat`; `StromUtilmdOderOrders` 15 minutes, 6 hours if
/// received on Saturday."
fn before_the_tolerance(received: OffsetDateTime, code: u8) -> OffsetDateTime {
    let on_saturday = in_berlin(received).weekday() == Weekday::Saturday;
    received
        + match (code, on_saturday) {
            (0, _) | (1, true) => Duration::hours(6),
            (1, false) => Duration::minutes(15),
            _ => Duration::minutes(45),
        }
}

/// What is due while Berlin's clock shows a time of the window is due at the midnight that ends it.
fn tolerated(at: OffsetDateTime, change_day: Date) -> OffsetDateTime {
    let (before, after) = (change_day - Duration::DAY, change_day + Duration::DAY);
    let shown = in_berlin(at);
    if shown.date() == change_day || shown.date() == before && shown.time() >= OPENS {
        berlin_midnight(after)
    } else {
        at
    }
}

fn by_version_one(at: OffsetDateTime) -> OffsetDateTime {
    let year = in_berlin(at).year();
    let change_days = MONTHS.map(|month| Date::from_calendar_date(year, month, 1));
    change_days.into_iter().flatten().fold(at, tolerated)
}
