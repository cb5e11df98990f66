//! The margin of a verdict, which the original does not tell. Document 02, F-6: "the last permitted
//! transmission day (the date beyond which the Rust's `check` calls a transmission too late; for the
//! window the one that `latest` gives) minus the transmission day"; for `EarliestWerktageAfter(n)`
//! "the anchor minus `add_werktage`(transmission day, n)". `verdict.rs` has these dates, and here
//! the original's `check` is asked whether they are the ones.

use super::verdict::shape;
use super::{contradicted, expected, Expected};
use crate::days;
use mako_fristen::vorlauf::{VorlaufShape, VorlaufVerdict};
use mako_fristen::HolidayCalendar::BdewMaKo;
use mako_fristen_host::{Answer, Call, Question};
use std::ops::Range;
use time::{Date, Duration};

/// Where it stands in the answer: signed, little-endian.
const MARGIN: Range<usize> = 28..32;

/// Whether the call's answers have one.
#[must_use]
pub fn has_margin(call: Call) -> bool {
    matches!(call, Call::VorlaufCheck | Call::VorlaufCheckAt | Call::AbmeldungCheck)
}

/// The margin of an answer.
#[must_use]
pub fn margin(answer: &Answer) -> i32 {
    let bytes = answer.as_bytes()[MARGIN].try_into();
    i32::from_le_bytes(bytes.expect("four bytes"))
}

/// The answer with this margin.
pub(super) fn told_in(answer: Answer, margin: i32) -> Answer {
    let mut bytes = *answer.as_bytes();
    bytes[MARGIN].copy_from_slice(&margin.to_le_bytes());
    Answer::from_bytes(bytes)
}

/// In calendar days.
pub(super) fn days(last: Date, day: Date) -> i32 {
    i32::try_from((last - day).whole_days()).expect("two days of the calendar")
}

/// The answer, if `check` bears its margin out: a transmission on the last permitted day is not too
/// late, and one on the day after is. Else a kind that no call has.
///
/// # Errors
///
/// A panic that stands for no refusal.
pub fn expected_of_the_checks(question: &Question) -> Expected {
    let answer = expected(question)?;
    let (Ok(day), Ok(anchor)) = (days::given(question.date), days::given(question.date2)) else {
        return Ok(answer);
    };
    if answer.number() != 0 || turns(shape(question), day, anchor, margin(&answer)) {
        Ok(answer)
    } else {
        Ok(contradicted())
    }
}

fn turns(shape: VorlaufShape, day: Date, anchor: Date, margin: i32) -> bool {
    const DAY: Duration = Duration::DAY;
    let by = Duration::days(margin.into());
    let late = |shape: VorlaufShape, day, anchor| {
        matches!(shape.check(day, anchor, BdewMaKo), VorlaufVerdict::TooLate { .. })
    };
    let last = day + by;
    let closes = |shape| !late(shape, last, anchor) && late(shape, last + DAY, anchor);
    match shape {
        // Here the margin is the anchor's, so that one is moved.
        VorlaufShape::EarliestWerktageAfter(_) => {
            let first = anchor - by;
            !late(shape, day, first) && late(shape, day, first - DAY)
        }
        // One that closes before it opens may call both days too early; what closes it does not.
        VorlaufShape::WindowWerktageBefore { earliest, latest } => {
            let of_the_window =
                if earliest < latest { !late(shape, last, anchor) } else { closes(shape) };
            of_the_window && closes(VorlaufShape::LatestWerktageBefore(latest))
        }
        _ => closes(shape),
    }
}

#[cfg(test)]
mod tests {
    use super::{expected_of_the_checks, margin, shape, turns};
    use crate::days;
    use crate::original::expected;
    use crate::rows::margins;

    #[test]
    fn the_checks_bear_out_one_margin_alone() {
        for question in margins::of_note() {
            let answer = expected(&question).expect("no unknown panic");
            assert_eq!(expected_of_the_checks(&question), Ok(answer), "{question}");
            let [day, anchor] = [question.date, question.date2].map(days::given);
            let (day, anchor) = (day.expect("a date"), anchor.expect("a date"));
            let borne_out = |by| turns(shape(&question), day, anchor, margin(&answer) + by);
            assert!(borne_out(0), "{question}");
            assert!(![-7, -3, -2, -1, 1, 2, 3, 7].into_iter().any(borne_out), "{question}");
        }
    }
}
