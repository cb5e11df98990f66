//! How far the original walks, from day to day, for its answer.

use crate::days::{self, DAYS};
use crate::instants;
use crate::rows::any;
use mako_fristen_host::{Call, Date, Instant, Parameter, Question};

/// An answer for which it would walk more days than this comes from the list of Werktage, and is
/// asked of it rarely.
pub const FAR: u32 = 3000;

/// Whether the original may walk far for its answer: over many Werktage, or from one date to another.
#[must_use]
pub fn is_far(question: &Question) -> bool {
    let call = question.call;
    let apart = if call == Call::VorlaufCheckAt {
        days_between(question.instant, question.instant2)
    } else if call.takes(Parameter::SecondDate) {
        index(question.date).abs_diff(index(question.date2))
    } else {
        0
    };
    !is_refused(question) && (apart > FAR || any::steps(call) && steps(question) > FAR)
}

/// Whether a date or an instant is refused, and so nothing walked.
fn is_refused(question: &Question) -> bool {
    let Question { call, date, date2, instant, instant2, .. } = *question;
    call.takes(Parameter::Date) && days::given(date).is_err()
        || call.takes(Parameter::SecondDate) && days::given(date2).is_err()
        || call.takes(Parameter::Instant) && instants::given(instant).is_err()
        || call.takes(Parameter::SecondInstant) && instants::given(instant2).is_err()
}

/// How many Werktage it walks at the most.
fn steps(question: &Question) -> u32 {
    let n = question.n;
    if question.call.takes(Parameter::VorlaufShape) {
        steps_of_shape(question)
    } else if question.call.takes(Parameter::Instant) {
        n.min(days_between(question.instant, Instant::LAST))
    } else if question.call == Call::SubWerktage {
        n.min(index(question.date))
    } else {
        n.min(DAYS - index(question.date))
    }
}

fn steps_of_shape(question: &Question) -> u32 {
    let Question { n, n2, .. } = *question;
    let months = n.saturating_mul(31);
    match question.code {
        1 => n.max(n2),
        5 => 0,
        6 => months,
        7 => months.max(n2),
        _ => n,
    }
}

/// The index of the date; 0 if it is none.
fn index(date: Date) -> u32 {
    days::given(date).map_or(0, days::index)
}

fn days_between(one: Instant, other: Instant) -> u32 {
    let days = one.seconds.abs_diff(other.seconds) / (24 * 3600);
    u32::try_from(days).unwrap_or(u32::MAX)
}
