//! How many days a count tests, which the original does not tell. Document 02, F-3: "for each of its
//! two dates, the days from 1 January up to and including it"; 0 "where the second date isn't later".

use mako_fristen_host::Answer;
use std::ops::Range;
use time::Date;

/// Where it stands in the answer, little-endian.
const TESTED: Range<usize> = 24..28;

/// The answer of a count with its days tested.
pub(super) fn told_in(answer: Answer, from: Date, to: Date) -> Answer {
    let mut bytes = *answer.as_bytes();
    bytes[TESTED].copy_from_slice(&days(from, to).to_le_bytes());
    Answer::from_bytes(bytes)
}

fn days(from: Date, to: Date) -> u32 {
    if from < to {
        u32::from(from.ordinal()) + u32::from(to.ordinal())
    } else {
        0
    }
}
