//! Files of questions: the four operations with the arguments of their single calls, what is no
//! question, and lengths.

use super::{any, corners, far, instants, margins, vorlauf, years};
use crate::days::DAYS;
use crate::instants::to_host;
use crate::original::{self, Expected};
use crate::random::Random;
use crate::records::{self, Record, LAST_CLOCK, LEN, LONGEST_FILE, OPERATIONS};
use crate::walk::is_far;
use mako_fristen_host::{ffi, Call, Clock, Date, Instant, Question};
use time::macros::datetime;

/// Puts a file of questions with as many bytes for its answers as are lent; returns the number.
pub type AskFile = fn(&[u8], &mut [u8]) -> u8;

/// A file of questions and the slice that is lent for its answers.
pub struct FileProbe {
    pub questions: Vec<u8>,
    pub len: usize,
    /// What stands in and around the slice before, and around the questions.
    pub fill: u8,
}

/// A row of files.
pub struct FileRow {
    pub what: &'static str,
    pub len: u64,
    pub probe: Box<dyn Fn(u64) -> FileProbe + Sync>,
    pub ask: AskFile,
    /// What is expected of a record.
    pub expected: fn(&Record) -> Expected,
}

const FILL: u8 = 0xa5;

impl FileRow {
    fn new(
        what: &'static str,
        len: u64,
        probe: impl Fn(u64) -> FileProbe + Sync + 'static,
    ) -> Self {
        let (ask, expected) = (ffi::mf_questions, original::expected_of_record);
        FileRow { what, len, probe: Box::new(probe), ask, expected }
    }

    /// So many records, one after the other, in files as long as they may be.
    fn of_records(
        what: &'static str,
        len: u64,
        record: impl Fn(u64) -> Record + Sync + 'static,
    ) -> FileRow {
        const EACH: u64 = (LONGEST_FILE / LEN) as u64;
        FileRow::new(what, len.div_ceil(EACH), move |place| {
            let records = (place * EACH..len.min((place + 1) * EACH)).map(&record);
            answered(records.flatten().collect())
        })
    }

    fn listed(what: &'static str, records: Vec<Record>) -> FileRow {
        FileRow::of_records(what, records.len() as u64, move |place| records[place as usize])
    }

    fn random(
        what: &'static str,
        len: u64,
        seed: u64,
        probe: impl Fn(&mut Random) -> FileProbe + Sync + 'static,
    ) -> FileRow {
        const ROW: u64 = 3 << 32;
        let row = what.bytes().fold(ROW, |sum, byte| sum.wrapping_mul(31) + u64::from(byte));
        FileRow::new(what, len, move |place| probe(&mut Random::at(seed, row, place)))
    }
}

fn answered(questions: Vec<u8>) -> FileProbe {
    FileProbe { len: questions.len(), questions, fill: FILL }
}

pub fn rows(seed: u64, random: u64) -> Vec<FileRow> {
    /// Where the original walks far, which takes it up to 40 ms for each.
    const FAR: u64 = 24;
    let short = |record: fn(&mut Random) -> Record| {
        move |random: &mut Random| {
            let len = random.below(17);
            answered((0..len).flat_map(|_| record(random)).collect())
        }
    };
    let of_calls = |questions: fn(Call) -> Vec<Question>| {
        let questions: Vec<Question> = OPERATIONS.into_iter().flat_map(questions).collect();
        let random = &mut Random::at(seed, questions.len() as u64, 0);
        questions.iter().map(|question| written(question, random)).collect()
    };
    vec![
        FileRow::random("random, questions of every kind", random / 50, seed, any_file),
        FileRow::random("random, with bits turned", random / 50, seed, short(turned)),
        FileRow::random("random bytes", random / 200, seed, short(any_bytes)),
        FileRow {
            expected: original::expected_of_record_both_ways,
            ..FileRow::random("random, any dates and counts", far(FAR, random), seed, |random| {
                answered(any_count(random).into())
            })
        },
        FileRow {
            expected: original::expected_of_record_soon,
            ..FileRow::random("random, through years", random / 500, seed, short(through_years))
        },
        margins_about_0(seed),
        FileRow {
            expected: original::expected_of_record_soon,
            ..FileRow::random("random, far margins", random / 500, seed, short(far_margin))
        },
        FileRow::listed("corner arguments", of_calls(corners::corners)),
        FileRow::listed("what is no date", of_calls(no_dates)),
        FileRow::listed("refusals and their order", of_calls(corners::refused)),
        FileRow::listed("every operation and code", heads()),
        every_clock(),
        lengths(seed),
    ]
}

fn no_dates(call: Call) -> Vec<Question> {
    match call {
        Call::VorlaufCheck | Call::VorlaufSpan => corners::no_dates(call),
        _ => Vec::new(),
    }
}

/// Records of every kind, up to 2,048 and most files short; one file in sixteen refused.
fn any_file(random: &mut Random) -> FileProbe {
    let mut questions: Vec<u8> = (0..any_len(random)).flat_map(|_| any_record(random)).collect();
    if random.below(32) == 0 {
        let cut = questions.len().saturating_sub(random.below(LEN as u32) as usize);
        questions.truncate(cut);
    }
    let len = match random.below(32) {
        0 => other_len(questions.len(), random),
        _ => questions.len(),
    };
    FileProbe { questions, len, fill: random.number() as u8 }
}

/// How many records.
#[must_use]
pub fn any_len(random: &mut Random) -> u32 {
    let below = match random.below(64) {
        0 => 2049,
        1..8 => 129,
        8..32 => 17,
        _ => 4,
    };
    random.below(below)
}

/// Another length; most are near.
#[must_use]
pub fn other_len(len: usize, random: &mut Random) -> usize {
    let any = random.below(71) as usize;
    let near =
        [len + 1, len.saturating_sub(1), len + LEN, len.saturating_sub(LEN), 2 * len, 0, any];
    let other = random.one_of(&near);
    if other == len {
        len + 1
    } else {
        other
    }
}

/// A question of every kind; one in 32 is none.
#[must_use]
pub fn any_record(random: &mut Random) -> Record {
    let call = random.one_of(&OPERATIONS);
    let question = match random.below(8) {
        0 if call == Call::FristDueAt => instants::same_day_by_a_switch(call, random),
        _ => any::question(call, random),
    };
    let mut record = written(&question, random);
    if call == Call::FristDueAt && random.below(4) == 0 {
        record[8..12].copy_from_slice(&any_clock(random).to_le_bytes());
    }
    match random.below(64) {
        0 => record[0] = 4 + random.below(252) as u8,
        1 => record[2 + random.below(2) as usize] = 1 << random.below(8),
        _ => {}
    }
    record
}

/// With anything where the operation has no field, in two records of three.
#[must_use]
pub fn written(question: &Question, random: &mut Random) -> Record {
    let unused = match random.below(3) {
        0 => [0; LEN],
        1 => [u8::MAX; LEN],
        _ => any_bytes(random),
    };
    records::written(question, unused)
}

/// Seconds of a day by its end, by the hour that may be absent, and any number.
fn any_clock(random: &mut Random) -> u32 {
    let by = random.one_of(&[0, 2 * 3600, 3 * 3600, LAST_CLOCK, LAST_CLOCK, u32::MAX]);
    match random.below(4) {
        0 => random.number() as u32,
        _ => by.saturating_add(random.below(5)).saturating_sub(2),
    }
}

/// A record of every kind with one to three bits turned, unless the original would walk far for it.
#[must_use]
pub fn turned(random: &mut Random) -> Record {
    let record = any_record(random);
    let mut turned = record;
    for _ in 0..=random.below(3) {
        let bit = random.below(8 * LEN as u32);
        turned[bit as usize / 8] ^= 1 << (bit % 8);
    }
    match records::read(&turned) {
        Ok(question) if is_far(&question) => record,
        _ => turned,
    }
}

/// Any bytes; in half of the records those of a question in the first four places.
#[must_use]
pub fn any_bytes(random: &mut Random) -> Record {
    let mut record = std::array::from_fn(|_| random.number() as u8);
    if random.below(2) == 0 {
        let operation = random.below(4);
        let codes = OPERATIONS[operation as usize].codes().unwrap_or_default();
        record[..4].copy_from_slice(&[operation as u8, random.below(codes.into()) as u8, 0, 0]);
    }
    record
}

/// A question that steps over Werktage through years.
#[must_use]
pub fn through_years(random: &mut Random) -> Record {
    let call = random.one_of(&OPERATIONS[1..]);
    written(&years::question(call, random), random)
}

/// A verdict with an anchor on every date.
fn margins_about_0(seed: u64) -> FileRow {
    const ROW: u64 = 9 << 32;
    FileRow::of_records("every date, margins about 0", DAYS.into(), move |place| {
        let random = &mut Random::at(seed, ROW, place);
        let verdict = margins::about_0_on(place as u32, Call::VorlaufCheck, place, random);
        written(&verdict, random)
    })
}

fn far_margin(random: &mut Random) -> Record {
    written(&margins::far_off(Call::VorlaufCheck, random), random)
}

fn any_count(random: &mut Random) -> Record {
    let question = match random.one_of(&OPERATIONS[1..]) {
        Call::FristDueAt => instants::any_count(Call::FristDueAt, random),
        call => vorlauf::any_count(call, random),
    };
    written(&question, random)
}

/// Every operation with every code, and of known ones every bit of the bytes 2 and 3; with fields
/// that are answered, and with fields of which each is refused.
fn heads() -> Vec<Record> {
    let bytes = 0..=u8::MAX;
    let codes =
        bytes.clone().flat_map(|operation| bytes.clone().map(move |code| (operation, code)));
    let codes = codes.map(|(operation, code)| [operation, code, 0, 0]);
    let known = (0..4).flat_map(|operation| (0..10).map(move |code| [operation, code]));
    let bits = known.flat_map(|[operation, code]| {
        (0..16).map(move |bit| {
            let [low, high] = (1_u16 << bit).to_le_bytes();
            [operation, code, low, high]
        })
    });
    let with_fields = |head: [u8; 4]| {
        [ordinary(), [u8::MAX; LEN]].map(|mut record| {
            record[..4].copy_from_slice(&head);
            record
        })
    };
    codes.chain(bits).flat_map(with_fields).collect()
}

/// Fields that every operation answers. The instant is 2 April 2026, 00:00 in Berlin.
fn ordinary() -> Record {
    let contrl = Question::at(Call::ContrlDueAt, Instant::new(1_775_080_800, 0));
    let verdict = Question::on(Call::VorlaufCheck, Date::new(2026, 4, 2));
    let verdict = verdict.with_second(Date::new(2026, 4, 7)).with_count(1).with_second_count(1);
    records::written(&verdict, records::written(&contrl, [0; LEN]))
}

/// Every second of a day as the clock of a due shape, and numbers that are none: with the shapes
/// that have one, received on ordinary days, on those of both switches and on the last, and with
/// those that have none.
fn every_clock() -> FileRow {
    let friday = to_host(datetime!(2026-01-09 11:00 UTC));
    let (spring, autumn) =
        (to_host(datetime!(2026-03-29 00:30 UTC)), to_host(datetime!(2026-10-25 00:30 UTC)));
    let saturday = to_host(datetime!(2026-03-28 12:00 UTC));
    let each = [
        (0, friday),
        (0, saturday),
        (1, friday),
        (2, friday),
        (2, spring),
        (2, autumn),
        (2, Instant::LAST),
        (3, friday),
    ];
    let powers = (17..32).map(|power| 1_u32 << power);
    let over = powers.flat_map(|power| [power - 1, power, power + 1]);
    let over = over.chain([2 * (LAST_CLOCK + 1), u32::MAX - LAST_CLOCK, u32::MAX]);
    let clocks: Vec<u32> = (0..=LAST_CLOCK + 32).chain(over).collect();
    let len = clocks.len() * each.len();
    FileRow::of_records("every clock", len as u64, move |place| {
        let (clock, (code, received)) =
            (clocks[place as usize / each.len()], each[place as usize % each.len()]);
        let question = Question::at(Call::FristDueAt, received).with_code(code).with_count(1);
        let mut record = records::written(&question.with_clock(Clock::default()), [0; LEN]);
        record[8..12].copy_from_slice(&clock.to_le_bytes());
        record
    })
}

/// Questions of 0 to 130 bytes with as many answers, each with each; and some 150 bytes around the
/// longest file, where the answers are as long, or another length by 1, by 32, by one file or none.
fn lengths(seed: u64) -> FileRow {
    const SMALL: usize = 130;
    const AROUND: usize = 136;
    const AFTER: usize = 164;
    let small =
        (0..=SMALL).flat_map(|questions| (0..=SMALL).map(move |answers| (questions, answers)));
    let by_the_longest = (LONGEST_FILE - AROUND..=LONGEST_FILE + AFTER).flat_map(|questions| {
        let less = [questions - LEN, questions - 1, questions.saturating_sub(LONGEST_FILE)];
        let more = [questions, questions + 1, questions + LEN, questions + LONGEST_FILE];
        less.into_iter().chain(more).map(move |answers| (questions, answers))
    });
    let far = [2, 3, 16].map(|files| (files * LONGEST_FILE, files * LONGEST_FILE));
    let lens: Vec<(usize, usize)> = small.chain(by_the_longest).chain(far).collect();
    let random = &mut Random::at(seed, lens.len() as u64, 0);
    let file: Vec<u8> = (0..LONGEST_FILE / LEN).flat_map(|_| any_record(random)).collect();
    FileRow::new("lengths by 0 and by the longest", lens.len() as u64, move |place| {
        let (questions, len) = lens[place as usize];
        let questions = file.iter().copied().cycle().take(questions).collect();
        FileProbe { questions, len, fill: FILL }
    })
}

#[cfg(test)]
mod tests {
    use super::{rows, FileProbe, FileRow};
    use crate::original;
    use crate::records::{self, Record, LEN};
    use std::collections::HashSet;

    /// How many files are looked at.
    const LOOK: u64 = 2000;

    fn row(what: &str) -> FileRow {
        let found = rows(1, 100 * LOOK).into_iter().find(|row| row.what == what);
        found.expect("a row")
    }

    fn probes(row: &FileRow) -> impl Iterator<Item = FileProbe> + '_ {
        (0..row.len).map(|place| (row.probe)(place))
    }

    fn number(record: &Record) -> u8 {
        original::expected_of_record(record).expect("no unknown panic").number()
    }

    #[test]
    fn no_row_is_empty_and_places_do_not_depend_on_how_many_there_are() {
        for (few, many) in rows(7, 1_000_000).iter().zip(&rows(7, 30_000_000)) {
            assert!(few.len > 0, "{}", few.what);
            let place = few.len.min(many.len) / 2;
            let [few, many] = [few, many].map(|row| (row.probe)(place));
            assert_eq!((few.questions, few.len), (many.questions, many.len));
        }
    }

    #[test]
    fn answers_and_refusals_of_every_operation_are_met() {
        let mut met = HashSet::new();
        let mut unused = [0; 4];
        for probe in probes(&row("random, questions of every kind")) {
            for record in records::each(&probe.questions) {
                let operation = usize::from(record[0]);
                met.insert((operation, number(record)));
                let fields: &[u8] = match operation {
                    0 => &record[4..20],
                    1 => &record[12..20],
                    2 => &record[20..],
                    _ => &record[16..],
                };
                if operation < 4 && fields.iter().any(|&byte| byte != 0) {
                    unused[operation] += 1;
                }
            }
        }
        let numbers: [&[u8]; 4] =
            [&[0, 2, 4, 8], &[0, 2, 4, 5, 6, 8], &[0, 2, 3, 8], &[0, 2, 3, 8]];
        for (operation, numbers) in numbers.into_iter().enumerate() {
            let missed = numbers.iter().find(|&&number| !met.contains(&(operation, number)));
            assert_eq!(missed, None, "of operation {operation}");
        }
        assert!((4..256).filter(|&operation| met.contains(&(operation, 2))).count() > 100);
        assert!(unused.iter().all(|&records| records > 1000), "{unused:?}");
    }

    #[test]
    fn files_of_every_length_are_met() {
        let lens: HashSet<(usize, usize)> = probes(&row("lengths by 0 and by the longest"))
            .map(|probe| (probe.questions.len(), probe.len))
            .collect();
        assert!((0..=130).all(|len| (0..=130).all(|answers| lens.contains(&(len, answers)))));
        for len in 65_400..=65_700 {
            let answers = [len, len - 1, len + 1, len - LEN, len + LEN];
            assert!(answers.iter().all(|&answers| lens.contains(&(len, answers))), "{len}");
        }
        let any: Vec<FileProbe> = probes(&row("random, questions of every kind")).collect();
        assert!(any.iter().any(|probe| probe.questions.len() > 60_000));
        let refused = any.iter().filter(|p| records::is_refused(p.questions.len(), p.len)).count();
        assert!((any.len() / 40..any.len() / 10).contains(&refused), "{refused}");
    }
}
