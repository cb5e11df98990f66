//! Puts the questions of rows to both sides.

mod file;
mod guarded;
mod portfolio;

use crate::cores::{cores, split};
use crate::original::{caught, Panic};
use crate::progress::Progress;
use crate::rows::{Probe, Row, LONGEST};
use mako_fristen_host::{Answer, Refusal};
use std::sync::Mutex;

const GUARD: usize = 16;
const SHOWN: usize = 5;
/// How many questions of a row a thread takes at a time, at the most.
const SHARE: u64 = 4096;

/// A lent slice of any length up to the longest, with guard bytes on both sides.
type Lent = [u8; GUARD + LONGEST + GUARD];

/// A row that can be run. What is put at a place, a question or a file of them, is made from the
/// place alone.
pub trait Places: Sync {
    /// The call, as C knows it.
    fn call(&self) -> &'static str;

    /// Which arguments it has.
    fn what(&self) -> &'static str;

    /// How many places there are.
    fn places(&self) -> u64;

    /// What is put at the place, in words.
    fn told(&self, place: u64) -> String;

    /// Puts it to both sides.
    fn put(&self, place: u64) -> Put;
}

/// What came of a place.
pub struct Put {
    /// How many answers were compared, with a difference or without: at least one.
    pub compared: u64,
    pub differences: u64,
    /// The first few of them, in full.
    pub shown: Vec<String>,
}

impl Put {
    /// One comparison.
    fn one(difference: Option<String>) -> Put {
        Put {
            compared: 1,
            differences: difference.is_some().into(),
            shown: Vec::from_iter(difference),
        }
    }

    fn unmade(place: u64, panic: &Panic) -> Put {
        Put::one(Some(format!("place {place}, whose question is not made: {panic}")))
    }
}

/// A place at which the two sides differ, in full.
pub struct Difference {
    pub place: u64,
    pub text: String,
}

#[derive(Default)]
pub struct Outcome {
    /// How many places were put to both sides.
    pub put: u64,
    /// How many answers were compared, with a difference or without.
    pub compared: u64,
    pub differences: u64,
    /// Those of the first few places.
    pub shown: Vec<Difference>,
}

impl Outcome {
    /// Whether the row has places, and all were put.
    #[must_use]
    pub fn is_whole(&self, row: &dyn Places) -> bool {
        row.places() > 0 && self.put == row.places()
    }

    fn add(&mut self, place: u64, Put { compared, differences, shown }: Put) {
        let shown = shown.into_iter().map(|text| Difference { place, text }).collect();
        self.join(Outcome { put: 1, compared, differences, shown });
    }

    fn join(&mut self, other: Outcome) {
        self.put += other.put;
        self.compared += other.compared;
        self.differences += other.differences;
        self.shown.extend(other.shown);
        self.shown.sort_by_key(|difference| difference.place);
        self.shown.truncate(SHOWN);
    }
}

/// Puts every place of the rows, on all cores. All rows advance alike, so that a long run goes on at
/// the rate at which it began.
#[must_use]
pub fn run(rows: &[&dyn Places], progress: &Progress) -> Vec<Outcome> {
    let outcomes: Vec<Mutex<Outcome>> = rows.iter().map(|_| Mutex::default()).collect();
    let longest = rows.iter().map(|row| row.places()).max().unwrap_or_default();
    let parts = (longest / SHARE).max(cores() as u64 * 64);
    let of_each = rows.len() as u64;
    let work = |(): &mut (), part: u64| {
        let (row, part) = ((part % of_each) as usize, part / of_each);
        let (outcome, row) = (&outcomes[row], rows[row]);
        let (from, to) = (row.places() * part / parts, row.places() * (part + 1) / parts);
        let mut of_part = Outcome::default();
        (from..to).for_each(|place| of_part.add(place, row.put(place)));
        outcome.lock().expect("no thread panics").join(of_part);
        progress.add(to - from);
    };
    split(cores(), parts * of_each, || (), work);
    outcomes.into_iter().map(|outcome| outcome.into_inner().expect("no thread panics")).collect()
}

impl Places for Row {
    fn call(&self) -> &'static str {
        self.call.name()
    }

    fn what(&self) -> &'static str {
        self.what
    }

    fn places(&self) -> u64 {
        self.len
    }

    fn told(&self, place: u64) -> String {
        let probe = (self.probe)(place);
        format!("{} with {} bytes", probe.question, probe.len)
    }

    fn put(&self, place: u64) -> Put {
        match caught(|| (self.probe)(place)) {
            Ok(probe) => Put::one(difference(self, &probe)),
            Err(panic) => Put::unmade(place, &panic),
        }
    }
}

/// What the two sides say, if it is not the same. A panic that stands for no refusal is the same as
/// nothing.
#[must_use]
fn difference(row: &Row, probe: &Probe) -> Option<String> {
    let slice = GUARD..GUARD + probe.len;
    let mut got: Lent = [probe.fill; GUARD + LONGEST + GUARD];
    let mut expected = got;
    let number = probe.question.ask(&mut got[slice.clone()]);
    let expected_number = if probe.len == Answer::LEN {
        let answer = match caught(|| (row.expected)(&probe.question)).flatten() {
            Ok(answer) => answer,
            Err(panic) => return Some(format!("{}: {panic}", probe.question)),
        };
        expected[slice].copy_from_slice(answer.as_bytes());
        answer.number()
    } else {
        Refusal::AnswerLength.number()
    };
    let same = number == expected_number && got == expected;
    (!same).then(|| told(probe, (expected_number, &expected), (number, &got)))
}

fn told(probe: &Probe, expected: (u8, &Lent), got: (u8, &Lent)) -> String {
    let end = GUARD + probe.len;
    let side = |(number, lent): (u8, &Lent)| format!("{number:3} {}", hex(&lent[GUARD..end]));
    let mut text = format!(
        "{} with {} bytes\n    expected {}\n    got      {}",
        probe.question,
        probe.len,
        side(expected),
        side(got)
    );
    if got.1[..GUARD] != expected.1[..GUARD] || got.1[end..] != expected.1[end..] {
        text.push_str("\n    and bytes beside the slice were written");
    }
    text
}

#[must_use]
pub fn hex(bytes: &[u8]) -> String {
    bytes.iter().map(|byte| format!("{byte:02x}")).collect()
}

#[cfg(test)]
mod tests {
    use super::{difference, run, Places};
    use crate::original::{self, Expected};
    use crate::progress::Progress;
    use crate::rows::{Probe, Row};
    use mako_fristen_host::{Answer, Call, Date, Question};

    /// 2 April 2026 and the place's Werktage.
    fn row(expected: fn(&Question) -> Expected) -> Row {
        let question = |n| Question::on(Call::AddWerktage, Date::new(2026, 4, 2)).with_count(n);
        let probe =
            move |place| Probe { question: question(place as u32), len: Answer::LEN, fill: 0 };
        Row { call: Call::AddWerktage, what: "", len: 100, probe: Box::new(probe), expected }
    }

    #[test]
    fn every_probe_of_every_row_is_compared() {
        let nothing = |_: &Question| Ok(Answer::default());
        let (right, wrong) = (row(original::expected), row(nothing));
        let outcomes = run(&[&right, &wrong, &right], &Progress::new(300));
        let counts = outcomes.iter().map(|outcome| (outcome.compared, outcome.differences));
        assert_eq!(counts.collect::<Vec<_>>(), [(100, 0), (100, 100), (100, 0)]);
        let places: Vec<u64> = outcomes[1].shown.iter().map(|shown| shown.place).collect();
        assert_eq!(places, [0, 1, 2, 3, 4]);
    }

    #[test]
    fn one_wrong_byte_is_a_difference() {
        let off_by_a_day = |question: &Question| {
            let answer = original::expected(question)?;
            let Date { year, month, day } = answer.date();
            Ok(answer.with_date(Date::new(year, month, day + 1)))
        };
        let row = row(off_by_a_day);
        let text = difference(&row, &(row.probe)(1)).expect("a difference");
        assert!(text.starts_with("mf_add_werktage(2026-04-02, 1) with 32 bytes"), "{text}");
        assert!(text.contains("ea070408") && text.contains("ea070407"), "{text}");
    }

    #[test]
    fn a_row_is_whole_if_it_has_questions_and_all_were_put() {
        let row = row(original::expected);
        let outcome = run(&[&row], &Progress::new(100)).remove(0);
        assert!(outcome.is_whole(&row));
        assert!(!outcome.is_whole(&Row { len: 101, ..row }));
        let empty = Row { len: 0, ..self::row(original::expected) };
        assert!(!run(&[&empty], &Progress::new(0))[0].is_whole(&empty));
    }

    /// Neither one that the original raises nor one of the harness ends the run, or passes.
    #[test]
    fn an_unknown_panic_is_a_difference() {
        let raised = row(|_| original::caught(|| panic!("made up")));
        let escaped = row(|_| panic!("got away"));
        let unmade = Row { probe: Box::new(|place| panic!("no {place}")), ..row(|_| panic!()) };
        let rows: [&dyn Places; 3] = [&raised, &escaped, &unmade];
        let outcomes = run(&rows, &Progress::new(300));
        let told = [
            "mf_add_werktage(2026-04-02, 0): an unknown panic, 'made up', in ",
            "mf_add_werktage(2026-04-02, 0): an unknown panic, 'got away', in ",
            "place 0, whose question is not made: an unknown panic, 'no 0', in ",
        ];
        for (outcome, told) in outcomes.iter().zip(told) {
            assert_eq!((outcome.compared, outcome.differences), (100, 100));
            assert!(outcome.shown[0].text.starts_with(told), "{}", outcome.shown[0].text);
        }
    }
}
