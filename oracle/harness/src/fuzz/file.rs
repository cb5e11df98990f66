//! A file of questions of any kind and length, what is expected of it, and where its slices lie.

use super::case::{rounds, wild, Round, WALKED};
use super::{answer_fault, Ask};
use crate::original::{self, has_margin, Expected, Panic};
use crate::random::Random;
use crate::records::{self, Record, CALL, LEN, LONGEST_FILE, OPERATIONS};
use crate::rows::files::{
    any_bytes, any_len, any_record, other_len, through_years, turned, written,
};
use crate::walk::is_far;
use mako_fristen_host::{Answer, Refusal};
use std::fmt;

/// The longest slice: somewhat more than the longest file.
pub(super) const LONGEST: usize = 65_700;
/// One in so many of the questions for which a walk is far is put.
const SELDOM: u32 = 16;

pub struct FileCase {
    pub questions: Vec<u8>,
    /// The original's answer to each question.
    pub expected: Vec<Expected>,
    pub rounds: Vec<Round>,
}

impl FileCase {
    /// The same seed and place give the same case.
    #[must_use]
    pub fn at(seed: u64, place: u64) -> FileCase {
        const ROW: u64 = 4 << 32;
        let random = &mut Random::at(seed, ROW, place);
        let mut questions: Vec<u8> = (0..any_len(random)).flat_map(|_| any(random)).collect();
        if random.below(8) == 0 {
            let more: Vec<u8> = (0..32).flat_map(|_| any(random)).collect();
            let len = any_bytes_len(random);
            questions = questions.into_iter().chain(more.into_iter().cycle()).take(len).collect();
        }
        let expected = |record: &Record| match random.below(WALKED) {
            0 => original::expected_of_record(record),
            _ => original::expected_of_record_soon(record),
        };
        let expected = records::each(&questions).map(expected).collect();
        let len = questions.len();
        let another = |random: &mut Random| match other_len(len, random) {
            another if another > LONGEST => 0,
            another => another,
        };
        FileCase { rounds: rounds(len, another, random), questions, expected }
    }

    /// How many whole records it has; 1 if it has none.
    #[must_use]
    pub fn records(&self) -> u32 {
        (self.questions.len() / LEN).max(1) as u32
    }

    /// A panic of the original that stands for no refusal.
    #[must_use]
    pub fn panic(&self) -> Option<&Panic> {
        self.expected.iter().find_map(|expected| expected.as_ref().err())
    }

    /// What the single calls answer, one for each question.
    #[must_use]
    pub fn singles(&self, ask: Ask) -> Vec<Answer> {
        let single = |record: &Record| match records::read(record) {
            Ok(question) => {
                let mut answer = [u8::MAX; Answer::LEN];
                let _ = ask(&question, &[], &mut answer);
                Answer::from_bytes(answer)
            }
            Err(refusal) => Answer::refused(refusal),
        };
        records::each(&self.questions).map(single).collect()
    }

    /// What is wrong with the answers of a file, beside the original's and those of the single calls.
    #[must_use]
    pub fn answers_fault(&self, number: u8, answers: &[u8], singles: &[Answer]) -> Option<String> {
        if number != 0 {
            return Some(format!("{number} returned"));
        }
        let given = records::each(answers).map(|&answer| Answer::from_bytes(answer));
        let given = given.zip(records::each(&self.questions));
        let each = given.zip(singles).zip(&self.expected).enumerate();
        let mut faults = each.filter_map(|(place, (((given, record), &single), expected))| {
            let margin = records::call(record).is_some_and(has_margin);
            let fault = |expected| answer_fault(given.number(), given, margin, expected);
            let fault = fault(expected.as_ref().ok().copied()).or_else(|| fault(Some(single)));
            fault.map(|fault| format!("answer {place}: {fault}"))
        });
        faults.next()
    }

    /// How many answers the original gave as well.
    #[must_use]
    pub fn told(&self) -> u64 {
        self.expected.iter().filter(|expected| expected.is_ok()).count() as u64
    }
}

/// What is wrong with a file that has to be refused.
pub fn refused_fault(number: u8, untouched: bool) -> Option<String> {
    if number != Refusal::FileLength.number() {
        Some(format!("{number} returned for a file of another length"))
    } else {
        (!untouched).then(|| String::from("refused, and the answers were written"))
    }
}

/// Half of the records are as in a row, the others go through years or have any numbers, turned bits
/// or any bytes.
fn any(random: &mut Random) -> Record {
    let record = match random.below(8) {
        0 => any_bytes(random),
        1 => turned(random),
        2 | 3 => {
            let question = wild(random.one_of(&OPERATIONS), random);
            written(&question, random)
        }
        4 => through_years(random),
        _ => any_record(random),
    };
    if is_far_record(&record) && random.below(SELDOM) != 0 {
        any_bytes(random)
    } else {
        record
    }
}

fn is_far_record(record: &Record) -> bool {
    records::read(record).is_ok_and(|question| is_far(&question))
}

/// Any number of bytes: few, about as many as a file may have, or any up to there.
fn any_bytes_len(random: &mut Random) -> usize {
    let by_the_longest = LONGEST_FILE + random.below(65) as usize;
    match random.below(8) {
        0 => by_the_longest,
        1 => random.one_of(&[LONGEST_FILE - LEN, LONGEST_FILE, LONGEST_FILE + LEN]),
        2 => random.below(LONGEST_FILE as u32 + 1) as usize,
        _ => random.below(71) as usize,
    }
}

impl fmt::Display for FileCase {
    fn fmt(&self, f: &mut fmt::Formatter<'_>) -> fmt::Result {
        write!(f, "{CALL} of {} bytes", self.questions.len())
    }
}
