//! A portfolio of any kind and length, what is expected of it, and where its slices lie.

use super::area::Place;
use super::case;
use super::system::Mark;
use super::Ask;
use crate::original::{
    count_soon, expected_of_portfolio, refusal_of_portfolio, Left, Panic, MOST_PAIRS,
};
use crate::portfolio::{self, Lens, Portfolio, CALL};
use crate::random::Random;
use crate::rows::portfolios::any_pairs;
use crate::run::hex;
use mako_fristen_host::{Answer, Question, Refusal};
use std::fmt;

/// The longest list: twice as long as one may be, and somewhat more.
pub(super) const LONGEST: usize = 2 * MOST_PAIRS + 100;

pub struct PortfolioCase {
    pub pairs: Vec<(u32, u32)>,
    /// What has to be left where the lengths are right, whatever stood there before.
    pub expected: Result<Left, Panic>,
    pub rounds: Vec<PortfolioRound>,
}

/// One call: what is lent, where the three lists and the answer lie, and what stands beside them.
pub struct PortfolioRound {
    pub lent: Portfolio,
    pub places: [Place; 4],
    pub guard: u32,
}

impl PortfolioCase {
    /// The same seed and place give the same case.
    #[must_use]
    pub fn at(seed: u64, place: u64) -> PortfolioCase {
        const ROW: u64 = 6 << 32;
        let random = &mut Random::at(seed, ROW, place);
        let mut pairs = any_pairs(random);
        if random.below(4) == 0 {
            pairs.iter_mut().for_each(|pair| turn(pair, random));
        }
        let expected = expected_of_portfolio(&Portfolio::new(&pairs, random), count_soon);
        let rounds = rounds(&pairs, random);
        PortfolioCase { pairs, expected, rounds }
    }

    /// A panic of the original.
    #[must_use]
    pub fn panic(&self) -> Option<&Panic> {
        self.expected.as_ref().err()
    }

    /// How many counts the original gave as well.
    #[must_use]
    pub fn told(&self) -> u64 {
        self.expected.as_ref().map_or(0, |expected| expected.counts.len() as u64)
    }

    /// What the single call counts for each pair.
    #[must_use]
    pub fn singles(&self, ask: Ask) -> Vec<Option<u32>> {
        let ask = |question: &Question, answer: &mut [u8]| ask(question, &[], answer);
        self.pairs.iter().map(|&pair| portfolio::single(pair, ask)).collect()
    }

    /// What is wrong with what a call of the portfolio has left, beside the original's counts and
    /// those of the single call.
    #[must_use]
    pub fn fault(
        &self,
        number: u8,
        counts: &[u32],
        answer: &[u8],
        singles: &[Option<u32>],
    ) -> Option<String> {
        let expected = self.expected.as_ref().ok();
        let fault = expected.and_then(|expected| left_fault(number, counts, answer, expected));
        let other = |(place, (single, got)): (usize, (&Option<u32>, &u32))| {
            let single = single.filter(|single| single != got)?;
            Some(format!("count {place}: the single call gives {single}, got {got}"))
        };
        fault.or_else(|| singles.iter().zip(counts).enumerate().find_map(other))
    }
}

impl PortfolioRound {
    /// The number with which the call has to be refused, or 0.
    #[must_use]
    pub fn refusal(&self) -> u8 {
        refusal_of_portfolio(&self.lent)
    }

    /// How memcheck has to see the third list and the answer before the call: what is written whole
    /// is undefined, and what must not be written may not be touched.
    #[must_use]
    pub fn marks(&self) -> [Mark; 2] {
        match self.refusal() {
            0 => [Mark::Undefined; 2],
            number if number == Refusal::AnswerLength.number() => [Mark::NoAccess; 2],
            _ => [Mark::NoAccess, Mark::Undefined],
        }
    }

    /// What is wrong with what a call that has to be refused has left.
    #[must_use]
    pub fn refused_fault(&self, number: u8, counts: &[u32], answer: &[u8]) -> Option<String> {
        let expected = expected_of_portfolio(&self.lent, count_soon).ok()?;
        left_fault(number, counts, answer, &expected)
    }
}

/// What is wrong with what a call has left.
fn left_fault(number: u8, counts: &[u32], answer: &[u8], expected: &Left) -> Option<String> {
    let whole = answer.len() == Answer::LEN;
    let count = if number == 0 { 4..8 } else { 4..4 };
    let zero = |(place, &byte): (usize, &u8)| place == 0 || count.contains(&place) || byte == 0;
    if number != expected.number {
        Some(format!("{number} returned and not {}", expected.number))
    } else if whole && answer[0] != number {
        Some(format!("{number} returned, but byte 0 is {}", answer[0]))
    } else if !whole && answer != expected.answer {
        Some(String::from("an answer of another length was written"))
    } else if number != 0 && counts != expected.counts {
        Some(String::from("refused, and the third list was written"))
    } else if whole && !answer.iter().enumerate().all(zero) {
        Some(format!("bytes that have to be zero are not: {}", hex(answer)))
    } else if answer != expected.answer {
        let [expected, got] = [&expected.answer, answer].map(hex);
        Some(format!("expected {expected}, got {got}"))
    } else {
        let mut each = expected.counts.iter().zip(counts).enumerate();
        let other = each.find(|(_, (expected, got))| expected != got);
        other.map(|(place, (expected, got))| {
            format!("count {place}: expected {expected}, got {got}")
        })
    }
}

/// Turns a bit of one day, in one pair of eight.
fn turn(pair: &mut (u32, u32), random: &mut Random) {
    let bit = 1 << random.below(32);
    match random.below(16) {
        0 => pair.0 ^= bit,
        1 => pair.1 ^= bit,
        _ => {}
    }
}

/// The third list and the answer at every place, each with the lengths that they have to have and with
/// others.
fn rounds(pairs: &[(u32, u32)], random: &mut Random) -> Vec<PortfolioRound> {
    let among = Place::Among(random.below(64) as usize);
    let places = [among, Place::AfterPage, Place::BeforePage, Place::Heap];
    let apart = random.below(4) as usize;
    let mut rounds = Vec::new();
    for at in 0..places.len() {
        let right = [pairs.len(), pairs.len(), pairs.len(), Answer::LEN];
        for lens in [right, other_lens(right, random)] {
            let read = [(); 2].map(|()| random.one_of(&places));
            rounds.push(PortfolioRound {
                lent: Portfolio::with_lens(pairs, lens, random),
                places: [read[0], read[1], places[at], places[(at + apart) % places.len()]],
                guard: random.number() as u32,
            });
        }
    }
    rounds
}

/// Lengths that are refused: of the answer, of one of the lists, of all lists alike, or of all.
fn other_lens([len, _, _, answer]: Lens, random: &mut Random) -> Lens {
    let over = MOST_PAIRS + 1 + random.below(64) as usize;
    let other = other_len(len, random);
    match random.below(8) {
        0 | 1 => [len, len, len, case::other_len(random)],
        2 => [other, len, len, answer],
        3 => [len, other, len, answer],
        4 | 5 => [len, len, other, answer],
        6 => [over, over, over, answer],
        _ => [other, len, over, case::other_len(random)],
    }
}

/// Another length of a list; most are near.
fn other_len(len: usize, random: &mut Random) -> usize {
    let any = random.below(71) as usize;
    let near = [len + 1, len.saturating_sub(1), len / 2, 2 * len, 0, MOST_PAIRS, any];
    let other = random.one_of(&near);
    if other == len {
        len + 1
    } else {
        other
    }
}

impl fmt::Display for PortfolioCase {
    fn fmt(&self, f: &mut fmt::Formatter<'_>) -> fmt::Result {
        write!(f, "{CALL} of {} pairs", self.pairs.len())
    }
}

impl fmt::Display for PortfolioRound {
    fn fmt(&self, f: &mut fmt::Formatter<'_>) -> fmt::Result {
        let ([from, to, counts, answer], places) = (self.lent.lens(), self.places);
        write!(f, "{from}, {to} and {counts} entries and {answer} bytes {places:?}")
    }
}
