//! The questions, in rows. A row is one call over one set of arguments, and a probe of it is made
//! from its place alone.

mod abmeldung;
pub(crate) mod any;
pub mod change_days;
mod corners;
pub mod files;
mod instants;
mod kalender;
pub mod margins;
pub mod portfolios;
mod uhr;
mod vorlauf;
pub(crate) mod years;
pub mod zone;

use crate::original::{self, Expected};
use crate::random::Random;
use crate::run::Places;
use mako_fristen_host::{Answer, Call, Question};

/// The longest answer that is lent.
pub const LONGEST: usize = 70;

/// A question and the slice that is lent for its answer.
pub struct Probe {
    pub question: Question,
    pub len: usize,
    /// What stands in and around the slice before.
    pub fill: u8,
}

pub struct Row {
    pub call: Call,
    pub what: &'static str,
    pub len: u64,
    pub probe: Box<dyn Fn(u64) -> Probe + Sync>,
    /// What is expected of a question with an answer of 32 bytes.
    pub expected: fn(&Question) -> Expected,
}

impl Row {
    /// A row of questions with an answer of 32 bytes.
    fn new(
        call: Call,
        what: &'static str,
        len: u64,
        question: impl Fn(u64) -> Question + Sync + 'static,
    ) -> Row {
        let probe = move |place| Probe { question: question(place), len: Answer::LEN, fill: 0xa5 };
        Row { call, what, len, probe: Box::new(probe), expected: original::expected }
    }

    fn listed(call: Call, what: &'static str, questions: Vec<Question>) -> Row {
        Row::new(call, what, questions.len() as u64, move |place| questions[place as usize])
    }

    fn random(
        call: Call,
        what: &'static str,
        len: u64,
        seed: u64,
        question: fn(Call, &mut Random) -> Question,
    ) -> Row {
        let number = u64::from(call.number());
        let row = what.bytes().fold(number, |sum, byte| sum.wrapping_mul(31) + u64::from(byte));
        Row::new(call, what, len, move |place| question(call, &mut Random::at(seed, row, place)))
    }
}

/// The rows from which the replay list is drawn, with `random` questions where the arguments are too
/// many to try all.
#[must_use]
pub fn rows(seed: u64, random: u64) -> Vec<Row> {
    let mut rows = kalender::rows(seed, random);
    rows.extend(uhr::rows(seed, random));
    rows.extend(instants::rows(seed, random));
    rows.extend(vorlauf::rows(seed, random));
    rows.extend(abmeldung::rows(seed, random));
    rows.extend(change_days::rows(seed, random));
    rows.extend(Call::ALL.into_iter().flat_map(corners::rows));
    rows
}

/// Rows of steps and counts through years.
#[must_use]
pub fn through_years(seed: u64, random: u64) -> Vec<Row> {
    years::rows(seed, random)
}

/// The rows of a short run: those above, of the tz database, of files and of portfolios.
#[must_use]
pub fn short(seed: u64, random: u64) -> Vec<Box<dyn Places>> {
    all(short_rows(seed, random), seed, random)
}

fn short_rows(seed: u64, random: u64) -> Vec<Row> {
    let mut rows = rows(seed, random);
    rows.extend(through_years(seed, random));
    rows.extend(margins::rows(seed, random));
    rows
}

/// The rows of a long run, with some so many random questions: those of a short one, whose random
/// ones are four times what they are told, and for every call arguments of every kind.
#[must_use]
pub fn long(seed: u64, random: u64) -> Vec<Box<dyn Places>> {
    all(long_rows(seed, random), seed, random / 8)
}

fn long_rows(seed: u64, random: u64) -> Vec<Row> {
    let mut rows = short_rows(seed, random / 8);
    rows.extend(any::rows(seed, random / 2));
    rows
}

/// The rows, and those of files and portfolios.
fn all(rows: Vec<Row>, seed: u64, random: u64) -> Vec<Box<dyn Places>> {
    fn boxed(row: impl Places + 'static) -> Box<dyn Places> {
        Box::new(row)
    }
    let rows = rows.into_iter().chain(zone::opened()).map(boxed);
    let files = files::rows(seed, random).into_iter().map(boxed);
    let portfolios = portfolios::rows(seed, random).into_iter().map(boxed);
    rows.chain(files).chain(portfolios).collect()
}

/// How many questions there are where the original walks far and `few` are enough for a short run:
/// more in a long one.
fn far(few: u64, random: u64) -> u64 {
    const SHORT: u64 = 2_000_000;
    few * (random / SHORT).max(1)
}

/// With what the original walks to and what the list of Werktage leads to, which have to be the same.
fn both_ways(row: Row) -> Row {
    Row { expected: original::expected_both_ways, ..row }
}

#[cfg(test)]
mod tests {
    use super::{long_rows, short_rows, Row};
    use mako_fristen_host::Call;

    #[test]
    fn every_call_has_rows_and_no_row_is_empty() {
        let rows = short_rows(1, 2_000_000);
        assert!(Call::ALL.iter().all(|&call| rows.iter().any(|row| row.call == call)));
        let empty: Vec<&Row> = rows.iter().filter(|row| row.len == 0).collect();
        assert!(empty.is_empty(), "{:?}", empty.iter().map(|row| row.what).collect::<Vec<_>>());
    }

    #[test]
    fn a_long_run_has_millions_of_every_call() {
        const RANDOM: u64 = 250_000_000;
        let rows = long_rows(1, RANDOM);
        for call in Call::ALL {
            let of_call = rows.iter().filter(|row| row.call == call);
            let sum: u64 = of_call.map(|row| row.len).sum();
            assert!(sum > 4_500_000, "{}: {sum}", call.name());
        }
        let sum: u64 = rows.iter().map(|row| row.len).sum();
        assert!((280_000_000..340_000_000).contains(&sum), "{sum}");
    }

    /// A row and a place mean the same question however many there are.
    #[test]
    fn questions_do_not_depend_on_how_many_there_are() {
        let (few, many) = (long_rows(7, 8_000_000), long_rows(7, 250_000_000));
        assert_eq!(few.len(), many.len());
        for (few, many) in few.iter().zip(&many) {
            assert_eq!((few.call, few.what), (many.call, many.what));
            let place = few.len.min(many.len) / 2;
            let questions = [few, many].map(|row| (row.probe)(place).question);
            assert_eq!(questions[0], questions[1], "{}", few.what);
        }
    }
}
