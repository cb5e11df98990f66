//! Any numbers and bytes for the host calls, with slices that show every byte written or read
//! outside of them.

mod area;
mod case;
mod file;
mod portfolio;
mod system;

pub use area::Place;
pub use case::Case;
pub use file::FileCase;
pub use portfolio::PortfolioCase;
pub use system::{on_valgrind, tell_of_crashes};

use crate::original::{caught, has_margin};
use crate::portfolio::AskPortfolio;
use crate::records;
use crate::rows::files::AskFile;
use area::Area;
use case::Round;
use file::refused_fault;
use mako_fristen_host::{ffi, Answer, Call, Question, Refusal};
use portfolio::PortfolioRound;
use std::fmt;
use std::time::{Duration, Instant};
use system::Mark;

/// A call that takes longer, each of several times, is wrong: a walk over the whole calendar takes a
/// tenth of it. Once is no sign, since a thread may have to wait for a core.
const LONGEST_TIME: Duration = Duration::from_millis(300);
const SLOWER_ON_VALGRIND: u32 = 50;
const TIMES: usize = 3;
const SHOWN: usize = 5;
/// One case in so many is a file, and one a portfolio.
const TURN: u64 = Call::ALL.len() as u64 + 1;

/// Puts a question with a reason of any length and a lent answer; returns the number.
pub type Ask = fn(&Question, &[u8], &mut [u8]) -> u8;

/// The host calls.
#[must_use]
pub fn host_calls(question: &Question, reason: &[u8], answer: &mut [u8]) -> u8 {
    let Question { call, code, date, date2, .. } = *question;
    match call {
        Call::AbmeldungFuer => ffi::mf_abmeldung_fuer(reason, code, answer),
        Call::AbmeldungCheck => ffi::mf_abmeldung_check(
            reason,
            code,
            date.year,
            date.month,
            date.day,
            date2.year,
            date2.month,
            date2.day,
            answer,
        ),
        _ => question.ask(answer),
    }
}

/// What has been found.
#[derive(Default)]
pub struct Found {
    pub calls: u64,
    /// How many answers of 32 bytes the original gave as well.
    pub told: u64,
    pub wrong: u64,
    /// The first few, in full.
    pub shown: Vec<String>,
    /// The longest time that a question took, of a file or a portfolio on average.
    pub slowest: Duration,
    /// The question that took longest.
    pub slowest_question: String,
}

impl Found {
    #[must_use]
    pub fn and(mut self, other: Found) -> Found {
        if other.slowest > self.slowest {
            self.slowest = other.slowest;
            self.slowest_question = other.slowest_question;
        }
        self.calls += other.calls;
        self.told += other.told;
        self.wrong += other.wrong;
        self.shown.extend(other.shown);
        self.shown.truncate(SHOWN);
        self
    }
}

/// Puts cases and checks what comes back.
pub struct Fuzzer {
    ask: Ask,
    ask_file: AskFile,
    ask_portfolio: AskPortfolio,
    /// What the calls write.
    answers: Area<u8>,
    /// What they read: reasons and questions.
    read: Area<u8>,
    /// The lists of a portfolio: two to read and one to write.
    lists: [Area<u32>; 3],
    pub found: Found,
}

impl Fuzzer {
    #[must_use]
    pub fn new(ask: Ask, ask_file: AskFile, ask_portfolio: AskPortfolio) -> Fuzzer {
        let [answers, read] = [(); 2].map(|()| Area::new(file::LONGEST));
        let lists = [(); 3].map(|()| Area::new(portfolio::LONGEST));
        Fuzzer { ask, ask_file, ask_portfolio, answers, read, lists, found: Found::default() }
    }

    /// Puts the case of a place: a question, a file of them, or a portfolio.
    pub fn put_at(&mut self, seed: u64, place: u64) {
        const FILE: u64 = TURN - 1;
        const PORTFOLIO: u64 = TURN / 2 - 1;
        let put = match place % TURN {
            FILE => {
                caught(|| FileCase::at(seed, place)).map(|case| self.put_file(&case, seed, place))
            }
            PORTFOLIO => caught(|| PortfolioCase::at(seed, place))
                .map(|case| self.put_portfolio(&case, seed, place)),
            _ => caught(|| Case::at(seed, place)).map(|case| self.put(&case, seed, place)),
        };
        if let Err(panic) = put {
            self.wrong("a question", &panic.to_string(), seed, place);
        }
    }

    /// Puts the case at every place, with an answer of 32 bytes and one of another length.
    pub fn put(&mut self, case: &Case, seed: u64, place: u64) {
        if let Err(panic) = &case.expected {
            self.wrong(case, &panic.to_string(), seed, place);
        }
        self.put_each(case, &case.rounds, [seed, place], |fuzzer, round| fuzzer.round(case, round));
    }

    /// Puts the file at every place, with answers as long as the questions and others.
    pub fn put_file(&mut self, case: &FileCase, seed: u64, place: u64) {
        if let Some(panic) = case.panic() {
            self.wrong(case, &panic.to_string(), seed, place);
        }
        let singles = case.singles(self.ask);
        self.put_each(case, &case.rounds, [seed, place], |fuzzer, round| {
            fuzzer.file_round(case, round, &singles)
        });
    }

    /// Puts the portfolio at every place, with lists and an answer as they have to be and others.
    pub fn put_portfolio(&mut self, case: &PortfolioCase, seed: u64, place: u64) {
        if let Some(panic) = case.panic() {
            self.wrong(case, &panic.to_string(), seed, place);
        }
        let singles = case.singles(self.ask);
        self.put_each(case, &case.rounds, [seed, place], |fuzzer, round| {
            fuzzer.portfolio_round(case, round, &singles)
        });
    }

    fn put_each<R>(
        &mut self,
        case: impl fmt::Display,
        rounds: &[R],
        [seed, place]: [u64; 2],
        mut put: impl FnMut(&mut Fuzzer, &R) -> Option<String>,
    ) {
        system::at_place(place);
        let errors = system::valgrind_errors();
        for round in rounds {
            self.found.calls += 1;
            if let Some(fault) = put(self, round) {
                self.wrong(&case, &fault, seed, place);
            }
        }
        if system::valgrind_errors() != errors {
            self.wrong(&case, "valgrind reported an error", seed, place);
        }
    }

    fn wrong(&mut self, case: impl fmt::Display, fault: &str, seed: u64, place: u64) {
        self.found.wrong += 1;
        if self.found.shown.len() < SHOWN {
            let again = format!("oracle/fuzz --seed {seed} --place {place}");
            self.found.shown.push(format!("{case}: {fault}\n    again    {again}"));
        }
    }

    /// One call; what is wrong with it.
    fn round(&mut self, case: &Case, round: &Round) -> Option<String> {
        let expected = case.expected.as_ref().ok().copied();
        let mut answer = self.answers.lend(round.place, &round.content, round.guard);
        let mut reason = self.read.lend(round.read_place, &case.reason, round.guard);
        let whole = round.content.len() == Answer::LEN;
        answer.mark(if whole { Mark::Undefined } else { Mark::NoAccess });
        let started = Instant::now();
        let number = (self.ask)(&case.question, reason.slice(), answer.slice());
        let took = started.elapsed();
        if !whole {
            answer.mark(Mark::Defined);
        }
        let beside = beside(answer.is_intact(), reason.is_unchanged(&case.reason));
        let fault = match <[u8; Answer::LEN]>::try_from(&*answer.slice()) {
            Ok(bytes) if whole => {
                self.found.told += u64::from(expected.is_some());
                let margin = has_margin(case.question.call);
                answer_fault(number, Answer::from_bytes(bytes), margin, expected)
            }
            _ => length_fault(number, answer.slice() == round.content),
        };
        let ask = self.ask;
        let late = self.late(case, 1, took, || {
            let _ = ask(&case.question, &case.reason, &mut [0; Answer::LEN]);
        });
        let fault = fault.or(beside.map(String::from)).or(late);
        fault.map(|fault| format!("{fault} ({round})"))
    }

    /// One call of a file; what is wrong with it.
    fn file_round(&mut self, case: &FileCase, round: &Round, singles: &[Answer]) -> Option<String> {
        let refused = records::is_refused(case.questions.len(), round.content.len());
        let mut answers = self.answers.lend(round.place, &round.content, round.guard);
        let mut questions = self.read.lend(round.read_place, &case.questions, round.guard);
        answers.mark(if refused { Mark::NoAccess } else { Mark::Undefined });
        let started = Instant::now();
        let number = (self.ask_file)(questions.slice(), answers.slice());
        let took = started.elapsed();
        let fault = if refused {
            answers.mark(Mark::Defined);
            refused_fault(number, answers.slice() == round.content)
        } else {
            self.found.told += case.told();
            case.answers_fault(number, answers.slice(), singles)
        };
        let beside = beside(answers.is_intact(), questions.is_unchanged(&case.questions));
        let ask = self.ask_file;
        let late = self.late(case, case.records(), took, || {
            let _ = ask(&case.questions, &mut round.content.clone());
        });
        let fault = fault.or(beside.map(String::from)).or(late);
        fault.map(|fault| format!("{fault} ({round})"))
    }

    /// One call of a portfolio; what is wrong with it.
    fn portfolio_round(
        &mut self,
        case: &PortfolioCase,
        round: &PortfolioRound,
        singles: &[Option<u32>],
    ) -> Option<String> {
        let PortfolioRound { lent, places, guard } = round;
        let [from, to, counts] = &mut self.lists;
        let mut from = from.lend(places[0], &lent.from, *guard);
        let mut to = to.lend(places[1], &lent.to, *guard);
        let mut counts = counts.lend(places[2], &lent.counts, *guard);
        let mut answer = self.answers.lend(places[3], &lent.answer, *guard as u8);
        let [of_counts, of_answer] = round.marks();
        counts.mark(of_counts);
        answer.mark(of_answer);
        let started = Instant::now();
        let number = (self.ask_portfolio)(from.slice(), to.slice(), counts.slice(), answer.slice());
        let took = started.elapsed();
        let fault = if round.refusal() == 0 {
            self.found.told += case.told();
            case.fault(number, counts.slice(), answer.slice(), singles)
        } else {
            counts.mark(Mark::Defined);
            if of_answer == Mark::NoAccess {
                answer.mark(Mark::Defined);
            }
            round.refused_fault(number, counts.slice(), answer.slice())
        };
        let read = from.is_unchanged(&lent.from) && to.is_unchanged(&lent.to);
        let beside = beside(counts.is_intact() && answer.is_intact(), read);
        let ask = self.ask_portfolio;
        let late = self.late(case, case.pairs.len().max(1) as u32, took, || {
            let _ = ask(&lent.from, &lent.to, &mut lent.counts.clone(), &mut lent.answer.clone());
        });
        let fault = fault.or(beside.map(String::from)).or(late);
        fault.map(|fault| format!("{fault} ({round})"))
    }

    /// Keeps the slowest call, by the question; one that seems slower is put again, and its least
    /// time counts.
    fn late(
        &mut self,
        case: impl fmt::Display,
        questions: u32,
        took: Duration,
        again: impl Fn(),
    ) -> Option<String> {
        if took / questions <= self.found.slowest {
            return None;
        }
        let again = (0..TIMES).map(|_| {
            let started = Instant::now();
            again();
            started.elapsed()
        });
        let least = again.fold(took, Duration::min) / questions;
        if least > self.found.slowest {
            self.found.slowest = least;
            self.found.slowest_question = case.to_string();
        }
        let slower = if on_valgrind() { SLOWER_ON_VALGRIND } else { 1 };
        (least > LONGEST_TIME * slower).then(|| format!("it takes {least:?}"))
    }
}

/// What is wrong with an answer of 32 bytes, the last four of which may be a margin.
fn answer_fault(
    number: u8,
    given: Answer,
    margin: bool,
    expected: Option<Answer>,
) -> Option<String> {
    let bytes = given.as_bytes();
    let refused = number != 0;
    let zero = match (refused, margin) {
        (true, _) => [&bytes[1..4], &bytes[4..]],
        (false, false) => [&bytes[2..4], &bytes[28..]],
        (false, true) => [&bytes[2..4], &[]],
    };
    if number != given.number() {
        Some(format!("{number} returned, but byte 0 is {}", given.number()))
    } else if refused && !(Refusal::UnknownCode.number()..=8).contains(&number) {
        Some(format!("refused with {number}"))
    } else if zero.into_iter().flatten().any(|&byte| byte != 0) {
        Some(format!("bytes that have to be zero are not: {given:x}"))
    } else {
        let other = expected.filter(|&expected| expected != given);
        other.map(|expected| format!("expected {expected:x}, got {given:x}"))
    }
}

/// What is wrong with an answer of another length.
fn length_fault(number: u8, untouched: bool) -> Option<String> {
    if number != Refusal::AnswerLength.number() {
        Some(format!("{number} returned for an answer of another length"))
    } else {
        (!untouched).then(|| String::from("an answer of another length was written"))
    }
}

/// What is wrong beside what a call writes, and with what it reads.
fn beside(intact: bool, unchanged: bool) -> Option<&'static str> {
    if !intact {
        Some("bytes beside the answer were written")
    } else if !unchanged {
        Some("what is read or bytes beside it were written")
    } else {
        None
    }
}

#[cfg(test)]
mod tests;
