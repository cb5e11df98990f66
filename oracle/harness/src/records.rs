//! A question as a record of a file, by the words of request F-1 of document 02, byte by byte. It
//! shares nothing with the host's records.

use crate::instants::given_clock;
use mako_fristen_host::{Call, Clock, Date, Instant, Question, Refusal};

/// The bytes of a question, and of its answer.
pub const LEN: usize = 32;
/// The bytes of a file at the most: 2,048 questions.
pub const LONGEST_FILE: usize = 65_536;
/// The call that answers a file.
pub const CALL: &str = "mf_questions";

pub type Record = [u8; LEN];

/// The single calls by the number of their operation: CONTRL, due shape, verdict, span.
pub const OPERATIONS: [Call; 4] =
    [Call::ContrlDueAt, Call::FristDueAt, Call::VorlaufCheck, Call::VorlaufSpan];
/// How many occasions or shapes document 01 has for each.
const CODES: [u8; 4] = [3, 4, 8, 8];

pub const LAST_CLOCK: u32 = 86_399;
/// What is put to a single call for a clock over the last. It is refused, where the shape has one.
const NO_CLOCK: Clock = Clock::new(24, 0, 0, 0);

/// Whether a file of so many bytes with so many for its answers is refused, which is by 9.
#[must_use]
pub fn is_refused(questions: usize, answers: usize) -> bool {
    !questions.is_multiple_of(LEN) || questions > LONGEST_FILE || answers != questions
}

/// The records of a file that is not refused.
pub fn each(file: &[u8]) -> impl Iterator<Item = &Record> {
    file.as_chunks().0.iter()
}

/// The single call of a record's operation.
#[must_use]
pub fn call(record: &Record) -> Option<Call> {
    OPERATIONS.get(usize::from(record[0])).copied()
}

/// The question that is put to the single call for a record.
///
/// # Errors
///
/// [`Refusal::UnknownCode`], which comes before all that the single call refuses.
pub fn read(record: &Record) -> Result<Question, Refusal> {
    let (operation, code) = (usize::from(record[0]), record[1]);
    let zero = record[2] == 0 && record[3] == 0;
    if operation > 3 || code >= CODES[operation] || !zero {
        return Err(Refusal::UnknownCode);
    }
    let (n, n2) = (number_at(record, 4), number_at(record, 8));
    let (date, date2) = (date_at(record, 12), date_at(record, 16));
    let instant = Instant::new(i64::from_le_bytes(bytes(record, 20)), number_at(record, 28));
    let question = Question::new(OPERATIONS[operation]).with_code(code);
    Ok(match operation {
        0 => Question { instant, ..question },
        1 => Question { n, clock: clock(n2), instant, ..question },
        2 => Question { n, n2, date, date2, ..question },
        _ => Question { n, n2, date, ..question },
    })
}

fn bytes<const N: usize>(record: &Record, from: usize) -> [u8; N] {
    std::array::from_fn(|place| record[from + place])
}

fn number_at(record: &Record, from: usize) -> u32 {
    u32::from_le_bytes(bytes(record, from))
}

fn date_at(record: &Record, from: usize) -> Date {
    let [low, high, month, day] = bytes(record, from);
    Date::new(u16::from_le_bytes([low, high]), month, day)
}

/// The clock of so many whole seconds of a day.
fn clock(seconds: u32) -> Clock {
    if seconds > LAST_CLOCK {
        return NO_CLOCK;
    }
    let [hour, minute, second] = [seconds / 3600, seconds / 60 % 60, seconds % 60];
    Clock::new(hour as u8, minute as u8, second as u8, 0)
}

/// The record of a question of one of the four calls, over what stands in the places that its
/// operation does not use. Of a clock it has the whole seconds; what is none lies over the last.
#[must_use]
pub fn written(question: &Question, unused: Record) -> Record {
    let operation = OPERATIONS.iter().position(|&call| call == question.call);
    let operation = operation.expect("a call of a file");
    let mut record = unused;
    let mut write = |from: usize, bytes: &[u8]| {
        record[from..from + bytes.len()].copy_from_slice(bytes);
    };
    write(0, &[operation as u8, question.code, 0, 0]);
    match operation {
        0 => {}
        1 => {
            write(4, &question.n.to_le_bytes());
            write(8, &seconds_of(question.clock).to_le_bytes());
        }
        _ => {
            write(4, &question.n.to_le_bytes());
            write(8, &question.n2.to_le_bytes());
            write(12, &date_bytes(question.date));
        }
    }
    if operation == 2 {
        write(16, &date_bytes(question.date2));
    }
    if operation < 2 {
        write(20, &question.instant.seconds.to_le_bytes());
        write(28, &question.instant.nanos.to_le_bytes());
    }
    record
}

fn date_bytes(Date { year, month, day }: Date) -> [u8; 4] {
    let [low, high] = year.to_le_bytes();
    [low, high, month, day]
}

fn seconds_of(clock: Clock) -> u32 {
    let Clock { hour, minute, second, .. } = clock;
    let seconds = u32::from(hour) * 3600 + u32::from(minute) * 60 + u32::from(second);
    if given_clock(clock).is_ok() {
        seconds
    } else {
        seconds.max(LAST_CLOCK + 1)
    }
}

/// For tests: three CONTRL of 2 April 2026, each received a second after the other, and one that is
/// refused.
#[cfg(test)]
pub(crate) fn four() -> Vec<u8> {
    let contrl = |seconds| Question::at(Call::ContrlDueAt, Instant::new(seconds, 0));
    let seconds = [1_775_080_800, 1_775_080_801, 1_775_080_802, 0];
    seconds.into_iter().flat_map(|seconds| written(&contrl(seconds), [0; LEN])).collect()
}

#[cfg(test)]
mod tests {
    use super::{clock, is_refused, read, written, Record, LEN, OPERATIONS};
    use mako_fristen_host::{Call, Clock, Date, Instant, Question, Refusal};

    /// Every byte another, but for the first four.
    fn record(operation: u8, code: u8) -> Record {
        let mut record: Record = std::array::from_fn(|place| place as u8);
        record[..4].copy_from_slice(&[operation, code, 0, 0]);
        record
    }

    #[test]
    fn fields_stand_in_their_places() {
        let instant = Instant::new(0x1b1a_1918_1716_1514, 0x1f1e_1d1c);
        let (date, date2) = (Date::new(0x0d0c, 14, 15), Date::new(0x1110, 18, 19));
        let (n, n2) = (0x0706_0504, 0x0b0a_0908);
        let of = |operation, code| Question::new(OPERATIONS[operation]).with_code(code);
        assert_eq!(read(&record(0, 2)), Ok(Question { instant, ..of(0, 2) }));
        let clock = Clock::new(24, 0, 0, 0);
        assert_eq!(read(&record(1, 3)), Ok(Question { n, clock, instant, ..of(1, 3) }));
        assert_eq!(read(&record(2, 7)), Ok(Question { n, n2, date, date2, ..of(2, 7) }));
        assert_eq!(read(&record(3, 7)), Ok(Question { n, n2, date, ..of(3, 7) }));
    }

    #[test]
    fn what_is_no_question_is_refused_by_2() {
        let unknown = [(0, 3), (1, 4), (2, 8), (3, 8), (4, 0), (255, 0)];
        for (operation, code) in unknown {
            assert_eq!(read(&record(operation, code)), Err(Refusal::UnknownCode));
        }
        for place in [2, 3] {
            let mut record = record(0, 0);
            record[place] = 0x80;
            assert_eq!(read(&record), Err(Refusal::UnknownCode));
        }
    }

    #[test]
    fn clocks_are_whole_seconds() {
        assert_eq!(clock(0), Clock::new(0, 0, 0, 0));
        assert_eq!(clock(2 * 3600 + 30 * 60 + 7), Clock::new(2, 30, 7, 0));
        assert_eq!(clock(86_399), Clock::new(23, 59, 59, 0));
        assert_eq!([86_400, u32::MAX].map(clock), [Clock::new(24, 0, 0, 0); 2]);
    }

    #[test]
    fn what_is_written_is_read() {
        for (operation, call) in OPERATIONS.into_iter().enumerate() {
            let question = read(&record(operation as u8, 1)).expect("a question");
            assert_eq!(question.call, call);
            let question = Question { clock: Clock::default(), ..question };
            for unused in [0, 0xa5] {
                assert_eq!(read(&written(&question, [unused; LEN])), Ok(question));
            }
        }
        let half_past_two = Question::new(Call::FristDueAt).with_clock(Clock::new(2, 30, 0, 0));
        assert_eq!(written(&half_past_two, [0; LEN])[8..12], [0x28, 0x23, 0, 0]);
        let no_minute = half_past_two.with_clock(Clock::new(2, 60, 0, 0));
        assert_eq!(written(&no_minute, [0; LEN])[8..12], [0x80, 0x51, 1, 0]);
    }

    #[test]
    fn files_are_refused_by_their_lengths_alone() {
        for good in [0, 32, 64, 65_504, 65_536] {
            assert!(!is_refused(good, good));
            assert!(is_refused(good, good + 1) && is_refused(good, good + 32));
        }
        for bad in [1, 31, 33, 65_535, 65_537, 65_568, 1 << 17] {
            assert!(is_refused(bad, bad), "{bad}");
        }
    }
}
