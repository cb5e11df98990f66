//! What a portfolio gives, by the words of request F-5 of document 02. The counts are the original's,
//! and nothing is ours.

use super::{caught, werktage, Panic};
use crate::days;
use crate::portfolio::Portfolio;
use crate::walk::FAR;
use mako_fristen::HolidayCalendar::BdewMaKo;
use time::Date;

/// "Up to 4,096 pairs per call."
pub const MOST_PAIRS: usize = 4096;
/// What "a pair with an out-of-range day gives .. at its place".
pub const OUT_OF_RANGE: u32 = 4_294_967_295;
/// The bytes of "the usual 32-byte answer".
const ANSWER: usize = 32;
/// The refusals: of an answer of another length, and of lists that "differ in length or have over
/// 4,096 entries".
const ANSWER_LENGTH: u8 = 1;
const LIST_LENGTH: u8 = 10;
/// The count where two statements of the original do not agree: one that no pair has.
const CONTRADICTED: u32 = OUT_OF_RANGE - 1;
/// Of the counts for which it does not walk far, the original walks one in so many.
const WALKED: u32 = 64;

/// How the original counts for a pair of the calendar's days.
pub type Count = fn(Date, Date) -> u32;

/// What a call returns, and what then stands in the two slices that it may write.
#[derive(Clone, Debug, PartialEq, Eq)]
pub struct Left {
    pub number: u8,
    pub counts: Vec<u32>,
    pub answer: Vec<u8>,
}

/// What is expected of a call.
///
/// # Errors
///
/// A panic of the original: a count has none that stands for a refusal.
pub fn expected_of_portfolio(lent: &Portfolio, count: Count) -> Result<Left, Panic> {
    caught(|| left(lent, count))
}

fn left(lent: &Portfolio, count: Count) -> Left {
    let (counts, answer) = (lent.counts.clone(), lent.answer.clone());
    match refusal(lent) {
        ANSWER_LENGTH => Left { number: ANSWER_LENGTH, counts, answer },
        LIST_LENGTH => Left { number: LIST_LENGTH, counts, answer: answered(LIST_LENGTH, 0) },
        _ => {
            let counts = lent.pairs().map(|pair| counted(pair, count)).collect();
            Left { number: 0, counts, answer: answered(0, runs(lent.pairs())) }
        }
    }
}

/// The number with which the call is refused, by the lengths alone; 0 if it is not.
#[must_use]
pub fn refusal(lent: &Portfolio) -> u8 {
    let [from, to, counts, answer] = lent.lens();
    if answer != ANSWER {
        ANSWER_LENGTH
    } else if from != to || from != counts || from > MOST_PAIRS {
        LIST_LENGTH
    } else {
        0
    }
}

/// Byte 0 is the number, bytes 4 to 7 are the count, and all others are zero.
fn answered(number: u8, count: u32) -> Vec<u8> {
    let mut answer = vec![0; ANSWER];
    answer[0] = number;
    answer[4..8].copy_from_slice(&count.to_le_bytes());
    answer
}

fn counted(pair: (u32, u32), count: Count) -> u32 {
    match in_range(pair) {
        Some((from, to)) => count(from, to),
        None => OUT_OF_RANGE,
    }
}

fn in_range((from, to): (u32, u32)) -> Option<(Date, Date)> {
    Some((days::numbered(from)?, days::numbered(to)?))
}

/// "Where neighbouring pairs begin in the same year" they are a run. "A single pair is a run too,
/// whether or not its second day is later"; one "with an out-of-range day .. ends a run and belongs to
/// none".
fn runs(pairs: impl Iterator<Item = (u32, u32)>) -> u32 {
    let mut runs = 0;
    let mut year_before = None;
    for pair in pairs {
        let year = in_range(pair).map(|(from, _)| from.year());
        if year.is_some() && year != year_before {
            runs += 1;
        }
        year_before = year;
    }
    runs
}

/// The count from the list of Werktage.
#[must_use]
pub fn count_by_list(from: Date, to: Date) -> u32 {
    werktage::between(from, to)
}

/// The same; for one pair in some, if the original does not walk far for it and its walk leads there
/// too.
#[must_use]
pub fn count_soon(from: Date, to: Date) -> u32 {
    let days = (to - from).whole_days();
    let drawn = (days::index(from) + days::index(to)).is_multiple_of(WALKED);
    if drawn && days <= FAR.into() {
        count_both_ways(from, to)
    } else {
        count_by_list(from, to)
    }
}

/// The original's count, if the list leads to the same. Else one that no pair has.
#[must_use]
pub fn count_both_ways(from: Date, to: Date) -> u32 {
    let walked = mako_fristen::werktage_between(from, to, BdewMaKo);
    if count_by_list(from, to) == walked {
        walked
    } else {
        CONTRADICTED
    }
}

#[cfg(test)]
mod tests {
    use super::{count_both_ways, count_soon, expected_of_portfolio, Left, OUT_OF_RANGE};
    use crate::portfolio::{Lens, Portfolio};
    use crate::random::Random;

    /// 2 April 2026, Maundy Thursday, and the Tuesday after Easter.
    const THURSDAY: u32 = 20_545;
    const TUESDAY: u32 = 20_550;
    /// 1 January 2026 and 2027.
    const YEAR: u32 = 20_454;
    const NEXT_YEAR: u32 = 20_819;

    fn left(pairs: &[(u32, u32)]) -> Left {
        let lent = Portfolio::new(pairs, &mut Random::at(1, 2, 3));
        expected_of_portfolio(&lent, count_both_ways).expect("no panic")
    }

    fn runs(pairs: &[(u32, u32)]) -> u8 {
        let Left { number, answer, .. } = left(pairs);
        let others = answer[..4].iter().chain(&answer[5..]);
        assert!(number == 0 && answer.len() == 32 && others.into_iter().all(|&byte| byte == 0));
        answer[4]
    }

    #[test]
    fn counts_stand_at_their_places() {
        let pairs = [
            (THURSDAY, TUESDAY),
            (TUESDAY, THURSDAY),
            (9496, 339_675),
            (9495, TUESDAY),
            (THURSDAY, 339_676),
            (u32::MAX, 0),
            (THURSDAY, THURSDAY + 1),
            (THURSDAY - 1, THURSDAY),
        ];
        let out = OUT_OF_RANGE;
        assert_eq!(left(&pairs).counts, [1, 0, 222_031, out, out, out, 0, 1]);
    }

    #[test]
    fn runs_are_of_neighbours_in_range_of_one_year() {
        let (here, there) = ((YEAR, TUESDAY), (NEXT_YEAR, TUESDAY));
        let (out, out_too) = ((YEAR, 339_676), (9495, TUESDAY));
        assert_eq!((runs(&[]), runs(&[here]), runs(&[out])), (0, 1, 0));
        assert_eq!(runs(&[here, (NEXT_YEAR - 1, 9496), (YEAR, YEAR)]), 1);
        assert_eq!((runs(&[here, there]), runs(&[here, there, here])), (2, 3));
        assert_eq!(runs(&[(NEXT_YEAR - 1, TUESDAY), there]), 2);
        assert_eq!(runs(&[(YEAR - 1, TUESDAY), here]), 2);
        assert_eq!((runs(&[here, out, here]), runs(&[here, out_too, out, here])), (2, 2));
        assert_eq!((runs(&[out, here, here, out]), runs(&[out, out_too])), (1, 0));
        assert_eq!(runs(&[here, out, there, out_too, there]), 3);
    }

    #[test]
    fn lengths_are_refused_in_their_order() {
        let left = |lens: Lens| {
            let lent = Portfolio::with_lens(&[(9496, 9497)], lens, &mut Random::at(1, 2, 3));
            let left = expected_of_portfolio(&lent, count_soon).expect("no panic");
            let [counts, answer] = [left.counts == lent.counts, left.answer == lent.answer];
            (left, counts, answer)
        };
        for lens in [[1, 1, 1, 31], [1, 2, 3, 33], [4097, 4097, 4097, 0], [0, 0, 0, 64]] {
            let (left, counts, answer) = left(lens);
            assert!(left.number == 1 && counts && answer, "{lens:?}");
        }
        let differing = [[1, 1, 2], [1, 2, 1], [2, 1, 1], [0, 0, 1], [0, 1, 0], [1, 0, 0]];
        for [from, to, counts] in differing.into_iter().chain([[4097; 3], [8192; 3]]) {
            let (left, untouched, _) = left([from, to, counts, 32]);
            assert!(left.number == 10 && untouched, "{from} {to} {counts}");
            assert!(left.answer[0] == 10 && left.answer[1..].iter().all(|&byte| byte == 0));
        }
        for pairs in [0, 1, 4096] {
            assert_eq!(left([pairs, pairs, pairs, 32]).0.number, 0);
        }
    }
}
