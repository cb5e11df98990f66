use harness::original;
use mako_fristen_host::{Answer, Call, Date, Instant, Question};
use std::{array, fs};

/// The questions of a call without a clock in the replay list and their answers, which have to be the
/// original's of today.
pub fn replayed(call: Call) -> Vec<(Question, Answer)> {
    let path = concat!(env!("CARGO_MANIFEST_DIR"), "/../../crates/vektoren/stdin");
    let list = fs::read_to_string(path).expect("the replay list");
    let of_call = format!("{:02x}", call.number());
    let lines = list.lines().filter(|line| line.starts_with(&of_call));
    let read = |line: &str| {
        let (asked, stored) = line.split_once(' ').expect(line);
        let byte = |at: usize| u8::from_str_radix(&asked[2 * at..2 * at + 2], 16).expect(line);
        let year = |at: usize| u16::from_le_bytes([byte(at), byte(at + 1)]);
        let date = |at: usize| Date::new(year(at), byte(at + 2), byte(at + 3));
        let count = |at: usize| u32::from_le_bytes(array::from_fn(|by| byte(at + by)));
        let seconds = i64::from_le_bytes(array::from_fn(|by| byte(16 + by)));
        let question = Question::at(call, Instant::new(seconds, count(24))).with_code(byte(1));
        let question = Question { date: date(4), ..question }.with_second(date(8));
        let question = question.with_count(count(12)).with_second_count(count(32));
        let answer = original::expected_soon(&question).expect("no unknown panic");
        assert_eq!(format!("{answer:x}"), stored, "{question}");
        (question, answer)
    };
    lines.map(read).collect()
}
