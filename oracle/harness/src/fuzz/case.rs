//! A question of any kind, what is expected of it, and where its slices lie.

use super::area::Place;
use crate::original::{self, Expected};
use crate::random::Random;
use crate::rows::{any, years};
use mako_fristen_host::{Answer, Call, Parameter, Question, Reason};
use std::fmt;

const LONGEST_REASON: u32 = 300;
const LONGEST_ANSWER: u32 = 4096;
/// Where the original would walk far, one question in so many is put to it; the answer to the others
/// comes from the list of Werktage.
pub(super) const WALKED: u32 = 256;
/// An ordinary reason. It stands for one for which a question has no room.
const ORDINARY: &[u8] = b"Z33";

pub struct Case {
    pub question: Question,
    pub reason: Vec<u8>,
    /// The original's answer.
    pub expected: Expected,
    pub rounds: Vec<Round>,
}

/// One call: where its slices lie, and what stands in and beside them before.
pub struct Round {
    pub place: Place,
    /// That of what it reads: the reason, or the questions of a file.
    pub read_place: Place,
    pub content: Vec<u8>,
    pub guard: u8,
}

impl Case {
    /// The calls in turn. The same seed and place give the same case.
    #[must_use]
    pub fn at(seed: u64, place: u64) -> Case {
        const ROW: u64 = 2 << 32;
        let random = &mut Random::at(seed, ROW, place);
        let call = Call::ALL[(place % Call::ALL.len() as u64) as usize];
        let question = match random.below(16) {
            0 if any::walks(call) => years::question(call, random),
            0..8 => any::question(call, random),
            _ => wild(call, random),
        };
        let reason = any_reason(&question, random);
        let room = Reason::new(&reason).or(Reason::new(ORDINARY)).unwrap_or_default();
        let question = question.with_reason(room);
        let expected = match random.below(WALKED) {
            0 => original::expected(&question),
            _ => original::expected_soon(&question),
        };
        Case { question, reason, expected, rounds: rounds(Answer::LEN, other_len, random) }
    }
}

/// One parameter in two is any number at all; of counts that are walked, one in 32.
pub(super) fn wild(call: Call, random: &mut Random) -> Question {
    let question = any::question(call, random);
    call.parameters().iter().fold(question, |question, &parameter| {
        let count = matches!(parameter, Parameter::Count | Parameter::SecondCount);
        let one_in = if count && any::steps(call) { 32 } else { 2 };
        match random.below(one_in) {
            0 => any::with_any(question, parameter, random),
            _ => question,
        }
    })
}

/// The question's reason, or one of up to 300 bytes.
fn any_reason(question: &Question, random: &mut Random) -> Vec<u8> {
    if !question.call.takes(Parameter::Reason) || random.below(3) != 0 {
        return question.reason.as_bytes().to_vec();
    }
    let len = random.below(LONGEST_REASON + 1) as usize;
    let start = random.one_of(&[b"".as_slice(), b"ZQ7", b"\0\0\0", b"ZQ"]);
    let rest = std::iter::repeat_with(|| random.number() as u8);
    start.iter().copied().chain(rest).take(len).collect()
}

/// Every place, each with an answer of this length and one of another.
pub(super) fn rounds(
    len: usize,
    other_len: impl Fn(&mut Random) -> usize,
    random: &mut Random,
) -> Vec<Round> {
    let among = Place::Among(random.below(64) as usize);
    let places = [among, Place::AfterPage, Place::BeforePage, Place::Heap];
    let lens = places.map(|place| [len, other_len(random)].map(|len| (place, len)));
    let mut round = |(place, len)| Round {
        place,
        read_place: random.one_of(&places),
        content: (0..len).map(|_| random.number() as u8).collect(),
        guard: random.number() as u8,
    };
    lens.into_iter().flatten().map(&mut round).collect()
}

/// A length that is not 32.
pub(super) fn other_len(random: &mut Random) -> usize {
    let len = match random.below(16) {
        0 => random.below(LONGEST_ANSWER + 1),
        1..4 => random.one_of(&[0, 1, 31, 33, 64, LONGEST_ANSWER]),
        _ => random.below(71),
    };
    if len as usize == Answer::LEN {
        0
    } else {
        len as usize
    }
}

impl fmt::Display for Case {
    fn fmt(&self, f: &mut fmt::Formatter<'_>) -> fmt::Result {
        write!(f, "{}", self.question)?;
        if self.reason.len() > Reason::LONGEST {
            write!(f, " with the reason \"{}\"", self.reason.escape_ascii())?;
        }
        Ok(())
    }
}

impl fmt::Display for Round {
    fn fmt(&self, f: &mut fmt::Formatter<'_>) -> fmt::Result {
        let Round { place, read_place, content, .. } = self;
        write!(f, "{} bytes {place:?}, what is read {read_place:?}", content.len())
    }
}
