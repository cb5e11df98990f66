//! Two lists of day numbers, as request F-5 of document 02 has them, and what is lent with them.

use crate::days;
use crate::random::Random;
use mako_fristen_host::{Answer, Call, Question};
use std::fmt;

/// The call that counts for a portfolio.
pub const CALL: &str = "mf_portfolio";

/// Lends two lists to read, a third and an answer to write; returns the number.
pub type AskPortfolio = fn(&[u32], &[u32], &mut [u32], &mut [u8]) -> u8;

/// What a call is lent: the first and the second days of the pairs, and the third list and the answer
/// as they are before.
#[derive(Clone, Debug, PartialEq, Eq)]
pub struct Portfolio {
    pub from: Vec<u32>,
    pub to: Vec<u32>,
    pub counts: Vec<u32>,
    pub answer: Vec<u8>,
}

/// The lengths of the three lists and of the answer.
pub type Lens = [usize; 4];

impl Portfolio {
    /// The pairs with the room that they need, in which anything may stand.
    #[must_use]
    pub fn new(pairs: &[(u32, u32)], random: &mut Random) -> Portfolio {
        let lens = [pairs.len(), pairs.len(), pairs.len(), Answer::LEN];
        Portfolio::with_lens(pairs, lens, random)
    }

    /// With lists and an answer of these lengths: the pairs over and over, as far as a list goes; where
    /// there is none, zeros.
    #[must_use]
    pub fn with_lens(
        pairs: &[(u32, u32)],
        [from, to, counts, answer]: Lens,
        random: &mut Random,
    ) -> Portfolio {
        let pairs = if pairs.is_empty() { &[(0, 0)] } else { pairs };
        let days = || pairs.iter().cycle();
        Portfolio {
            from: days().map(|&(from, _)| from).take(from).collect(),
            to: days().map(|&(_, to)| to).take(to).collect(),
            counts: (0..counts).map(|_| random.number() as u32).collect(),
            answer: (0..answer).map(|_| random.number() as u8).collect(),
        }
    }

    #[must_use]
    pub fn lens(&self) -> Lens {
        [self.from.len(), self.to.len(), self.counts.len(), self.answer.len()]
    }

    /// The pairs of two lists of one length.
    pub fn pairs(&self) -> impl Iterator<Item = (u32, u32)> + '_ {
        self.from.iter().copied().zip(self.to.iter().copied())
    }
}

impl fmt::Display for Portfolio {
    fn fmt(&self, f: &mut fmt::Formatter<'_>) -> fmt::Result {
        let [from, to, counts, answer] = self.lens();
        write!(f, "{CALL} of {from}, {to} and {counts} entries with {answer} bytes")
    }
}

/// What the single call counts for a pair, if both days are the calendar's; the largest number where it
/// refuses.
pub fn single((from, to): (u32, u32), ask: impl Fn(&Question, &mut [u8]) -> u8) -> Option<u32> {
    let date = |number| days::numbered(number).and_then(days::to_host);
    let question = Question::on(Call::WerktageBetween, date(from)?).with_second(date(to)?);
    let mut answer = [u8::MAX; Answer::LEN];
    Some(match ask(&question, &mut answer) {
        0 => Answer::from_bytes(answer).count(),
        _ => u32::MAX,
    })
}

/// A pair for people.
#[must_use]
pub fn told((from, to): (u32, u32)) -> String {
    let day = |number| days::numbered(number).map_or(String::from("none"), |day| day.to_string());
    format!("{from} and {to}, {} and {}", day(from), day(to))
}
