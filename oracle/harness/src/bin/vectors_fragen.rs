//! Writes stored files of questions with the original's answers, for the programs that take them
//! without Rust: `fragen` has one, `vektoren_fragen` several with what is expected of each. The same
//! seed gives the same files. Options: `--seed N`, `--out FOLDER` (that of the crates).

use harness::original;
use harness::random::Random;
use harness::records::{self, Record, LAST_CLOCK, LEN, LONGEST_FILE, OPERATIONS};
use harness::rows::files::{self, any_bytes, any_record, turned};
use harness::rows::margins;
use harness::stored::{self, write, UNWRITTEN};
use mako_fristen_host::{Call, Refusal};
use std::path::Path;
use std::process::ExitCode;

const LONGEST: usize = LONGEST_FILE / LEN;

fn main() -> ExitCode {
    stored::run(5 << 32, written)
}

fn written(folder: &Path, random: &mut Random) -> Result<String, String> {
    let questions = mixed(LONGEST, random);
    write(folder, "fragen/stdin", &questions)?;
    write(folder, "fragen/stdout", &answers(&questions)?)?;
    let files = files(random);
    let stored: Result<Vec<Vec<u8>>, String> = files.iter().map(expected).collect();
    let bytes = stored?.concat();
    let number = files.len();
    write(folder, "vektoren_fragen/stdin", &bytes)?;
    let equal = format!("{number} files, {number} equal\n");
    write(folder, "vektoren_fragen/stdout", equal.as_bytes())?;
    Ok(format!("a file of {LONGEST} questions and {number} files of {} bytes", bytes.len()))
}

/// Questions, and how many bytes are lent for their answers.
type File = (Vec<u8>, usize);

/// A file with what is expected of it: 4 bytes, how many the questions have; 4 bytes, how many are
/// lent; the questions; the number; the answers.
fn expected((questions, lent): &File) -> Result<Vec<u8>, String> {
    let (number, answers) = if records::is_refused(questions.len(), *lent) {
        (Refusal::FileLength.number(), vec![UNWRITTEN; *lent])
    } else {
        (0, answers(questions)?)
    };
    let lens = [questions.len(), *lent].map(|len| (len as u32).to_le_bytes());
    Ok([lens.as_flattened(), questions, &[number], &answers].concat())
}

/// The original's.
fn answers(questions: &[u8]) -> Result<Vec<u8>, String> {
    let mut answers = Vec::new();
    for record in records::each(questions) {
        let answer = original::expected_of_record(record).map_err(|panic| panic.to_string())?;
        answers.extend(answer.as_bytes());
    }
    Ok(answers)
}

fn files(random: &mut Random) -> Vec<File> {
    let mut questions = vec![Vec::new()];
    questions.extend((0..4).map(|operation| answered(operation, random).into()));
    questions.extend([2, 3, 4, 5, 6, 8].map(|number| {
        let refused = |_: &Record, found| found == number;
        found(refused, random).into()
    }));
    for count in [16, 100] {
        questions.extend((0..4).map(|operation| of_operation(operation, count, random)));
    }
    questions.extend([2, 3, 500, LONGEST].map(|count| mixed(count, random)));
    questions.push(any_head(random));
    questions.push(any_clock(random));
    let with_answers = |questions: Vec<u8>| {
        let lent = questions.len();
        (questions, lent)
    };
    let files = questions.into_iter().map(with_answers).chain(refused(random));
    let verdicts =
        margins::of_note().iter().flat_map(|question| files::written(question, random)).collect();
    files.chain([with_answers(verdicts)]).collect()
}

/// Questions of every kind, and some of which little or nothing is known.
fn mixed(count: usize, random: &mut Random) -> Vec<u8> {
    let any = |random: &mut Random| match random.below(8) {
        0 => turned(random),
        1 => any_bytes(random),
        _ => any_record(random),
    };
    (0..count).flat_map(|_| any(random)).collect()
}

/// Questions of every kind of one operation.
fn of_operation(operation: u8, count: usize, random: &mut Random) -> Vec<u8> {
    let records = std::iter::repeat_with(|| any_record(random));
    records.filter(|record| record[0] == operation).take(count).flatten().collect()
}

/// Every known code of every operation and the first that is none, then what is no operation, and
/// what has a bit in byte 2 or 3.
fn any_head(random: &mut Random) -> Vec<u8> {
    let codes = |(operation, call): (u8, Call)| {
        (0..=call.codes().unwrap_or_default()).map(move |code| [operation, code, 0, 0])
    };
    let known = (0..).zip(OPERATIONS).flat_map(codes);
    let none = [[4, 0, 0, 0], [255, 0, 0, 0], [0, 0, 1, 0], [1, 0, 0, 1], [2, 0, 128, 0]];
    let heads = known.chain(none).chain([[3, 0, 0, 128], [3, 0, 255, 255]]);
    heads.flat_map(|head| begun_by(head, random)).collect()
}

/// Clocks by both ends of a day and far over it, for every due shape.
fn any_clock(random: &mut Random) -> Vec<u8> {
    let clocks = [0, 1, LAST_CLOCK - 1, LAST_CLOCK, LAST_CLOCK + 1, 1 << 17, u32::MAX];
    let shapes = clocks.into_iter().flat_map(|clock| (0..4).map(move |shape| (clock, shape)));
    let mut record = |(clock, shape): (u32, u8)| {
        let mut record = begun_by([1, shape, 0, 0], random);
        record[8..12].copy_from_slice(&clock.to_le_bytes());
        record
    };
    shapes.flat_map(&mut record).collect()
}

/// These four bytes, and behind them what is answered with this operation, or as a span.
fn begun_by(head: [u8; 4], random: &mut Random) -> Record {
    let mut record = answered(head[0].min(3), random);
    record[..4].copy_from_slice(&head);
    record
}

/// A question of the operation that is not refused.
fn answered(operation: u8, random: &mut Random) -> Record {
    found(|record, number| record[0] == operation && number == 0, random)
}

/// A question for which this holds, and of its answer's number.
fn found(holds: impl Fn(&Record, u8) -> bool, random: &mut Random) -> Record {
    loop {
        let record = any_record(random);
        let answer = original::expected_of_record(&record);
        if answer.is_ok_and(|answer| holds(&record, answer.number())) {
            return record;
        }
    }
}

/// Lengths that are refused.
fn refused(random: &mut Random) -> Vec<File> {
    let longest = mixed(LONGEST + 1, random);
    let of_lens = |(questions, lent): (usize, usize)| (longest[..questions].to_vec(), lent);
    let lens = [
        (1, 1),
        (31, 31),
        (33, 33),
        (63, 63),
        (65, 65),
        (0, 1),
        (1, 0),
        (0, 32),
        (32, 0),
        (32, 31),
        (32, 33),
        (32, 64),
        (64, 32),
        (31, 32),
        (33, 32),
        (96, 95),
        (LONGEST_FILE, LONGEST_FILE - 1),
        (LONGEST_FILE, LONGEST_FILE + 1),
        (LONGEST_FILE + LEN, LONGEST_FILE + LEN),
    ];
    lens.map(of_lens).into()
}
