//! Files of questions, each put to one call and question by question to the original.

use super::guarded::Guarded;
use super::{hex, Places, Put, SHOWN};
use crate::original::{caught, Expected};
use crate::records::{self, Record, CALL};
use crate::rows::files::{FileProbe, FileRow};
use mako_fristen_host::Refusal;

impl Places for FileRow {
    fn call(&self) -> &'static str {
        CALL
    }

    fn what(&self) -> &'static str {
        self.what
    }

    fn places(&self) -> u64 {
        self.len
    }

    fn told(&self, place: u64) -> String {
        told(&(self.probe)(place))
    }

    fn put(&self, place: u64) -> Put {
        match caught(|| (self.probe)(place)) {
            Ok(probe) => compared(self, &probe),
            Err(panic) => Put::unmade(place, &panic),
        }
    }
}

fn told(probe: &FileProbe) -> String {
    format!("{CALL} of {} bytes with {} for the answers", probe.questions.len(), probe.len)
}

/// Each answer is a comparison; a file without any is one.
fn compared(row: &FileRow, probe: &FileProbe) -> Put {
    let FileProbe { questions, len, fill } = probe;
    let lent = Guarded::new(questions, *fill);
    let mut answers = Guarded::new(&vec![*fill; *len], *fill);
    let number = (row.ask)(lent.slice(), answers.slice_mut());
    let refused = records::is_refused(questions.len(), *len);
    let expected_number = if refused { Refusal::FileLength.number() } else { 0 };
    let fault = if number != expected_number {
        Some(format!("{number} returned and not {expected_number}"))
    } else if !answers.is_intact() {
        Some(String::from("bytes beside the answers were written"))
    } else if !lent.is_intact() || lent.slice() != questions {
        Some(String::from("the questions or bytes beside them were written"))
    } else if refused && answers.slice().iter().any(|byte| byte != fill) {
        Some(String::from("refused, and the answers were written"))
    } else {
        None
    };
    let of_file = Put::one(fault.map(|fault| format!("{}: {fault}", told(probe))));
    if refused || questions.is_empty() {
        return of_file;
    }
    let mut put = of_records(row.expected, questions, answers.slice());
    // A fault beside right answers counts as one, and beside wrong ones as these.
    put.differences = put.differences.max(of_file.differences);
    put.shown.splice(0..0, of_file.shown);
    put
}

/// Each record of a file and its answer.
fn of_records(expected: fn(&Record) -> Expected, questions: &[u8], answers: &[u8]) -> Put {
    let mut put = Put { compared: 0, differences: 0, shown: Vec::new() };
    for (place, (record, got)) in records::each(questions).zip(records::each(answers)).enumerate() {
        put.compared += 1;
        let told = match caught(|| expected(record)).flatten() {
            Ok(answer) if answer.as_bytes() == got => continue,
            Ok(answer) => format!("\n    expected {answer:x}\n    got      {}", hex(got)),
            Err(panic) => format!(": {panic}"),
        };
        put.differences += 1;
        if put.shown.len() < SHOWN {
            let of = questions.len() / records::LEN;
            let question = records::read(record);
            let question = question.map_or(String::from("none"), |question| question.to_string());
            let record = hex(record);
            put.shown.push(format!("{CALL}, {place} of {of}: {record}, {question}{told}"));
        }
    }
    put
}

#[cfg(test)]
mod tests {
    use super::compared;
    use crate::original;
    use crate::progress::Progress;
    use crate::records::{self, LEN};
    use crate::rows::files::{self, AskFile, FileProbe, FileRow};
    use crate::run::{run, Put};
    use mako_fristen_host::{ffi, Answer};

    fn row(ask: AskFile) -> FileRow {
        let probe = |_| FileProbe { questions: records::four(), len: 4 * LEN, fill: 0xa5 };
        let expected = original::expected_of_record;
        FileRow { what: "", len: 10, probe: Box::new(probe), ask, expected }
    }

    /// What is found if questions of so many bytes are put with so many for the answers.
    fn put(ask: AskFile, len: usize, answers: usize) -> Put {
        let questions = records::four()[..len].to_vec();
        compared(&row(ask), &FileProbe { questions, len: answers, fill: 0xa5 })
    }

    fn assert_found(ask: AskFile, [len, answers]: [usize; 2], differences: u64, told: &str) {
        let put = put(ask, len, answers);
        assert_eq!(put.differences, differences, "{:?}", put.shown);
        assert!(put.shown[0].contains(told), "{:?}", put.shown);
    }

    /// Writes a byte so many after the first.
    fn write_at(slice: &[u8], by: isize) {
        // SAFETY: none; it is what has to be found.
        unsafe { slice.as_ptr().cast_mut().offset(by).write_volatile(0x77) }
    }

    #[test]
    fn the_call_is_right_and_every_answer_a_comparison() {
        for (len, answers, comparisons) in [(128, 128, 4), (32, 32, 1), (0, 0, 1), (128, 127, 1)] {
            let put = put(ffi::mf_questions, len, answers);
            assert_eq!((put.compared, put.differences), (comparisons, 0), "{:?}", put.shown);
        }
        let row = row(ffi::mf_questions);
        let outcome = run(&[&row], &Progress::new(10)).remove(0);
        assert_eq!((outcome.put, outcome.compared, outcome.differences), (10, 40, 0));
        assert!(outcome.is_whole(&row));
    }

    #[test]
    fn a_wrong_answer_is_a_difference() {
        let one_off: AskFile = |questions, answers| {
            let number = ffi::mf_questions(questions, answers);
            answers.rotate_right(LEN);
            number
        };
        assert_found(one_off, [128, 128], 4, "mf_questions, 0 of 4: 0000");
        let last_left_out: AskFile = |questions, answers| {
            let end = questions.len() - LEN;
            ffi::mf_questions(&questions[..end], &mut answers[..end])
        };
        assert_found(last_left_out, [128, 128], 1, "3 of 4: 0000");
        let put = put(last_left_out, 128, 128);
        assert!(put.shown[0].contains("mf_contrl_due_at(0 s 0 ns, 0)"), "{:?}", put.shown);
        assert!(put.shown[0].contains("expected 0400") && put.shown[0].contains("got      a5a5"));
    }

    #[test]
    fn a_wrong_number_is_a_difference() {
        let refuses: AskFile = |_, _| 9;
        assert_found(refuses, [128, 128], 4, "9 returned and not 0");
        assert_found(refuses, [0, 0], 1, "9 returned and not 0");
        let answers: AskFile = |questions, answers| {
            answers[..64].fill(0);
            ffi::mf_questions(&questions[..64], &mut answers[..64])
        };
        assert_found(
            answers,
            [65, 65],
            1,
            "of 65 bytes with 65 for the answers: 0 returned and not 9",
        );
        assert_found(|q, a| ffi::mf_questions(q, a) + 1, [128, 128], 1, "1 returned and not 0");
    }

    #[test]
    fn a_byte_written_elsewhere_is_a_difference() {
        let on_a_9: AskFile = |_, answers| {
            answers[0] = 9;
            9
        };
        assert_found(on_a_9, [128, 127], 1, "refused, and the answers were written");
        let asks: [(AskFile, &str); 4] = [
            (|q, a| (write_at(a, a.len() as isize), ffi::mf_questions(q, a)).1, "the answers"),
            (|q, a| (write_at(a, -1), ffi::mf_questions(q, a)).1, "the answers"),
            (|q, a| (ffi::mf_questions(q, a), write_at(q, 5)).0, "the questions"),
            (|q, a| (ffi::mf_questions(q, a), write_at(q, q.len() as isize)).0, "the questions"),
        ];
        for (ask, told) in asks {
            assert_found(ask, [128, 128], 1, told);
            assert_found(ask, [128, 64], 1, told);
        }
    }

    #[test]
    fn an_unknown_panic_is_a_difference() {
        let raised = FileRow { expected: |_| panic!("made up"), ..row(ffi::mf_questions) };
        let unmade = FileRow { probe: Box::new(|_| panic!("no file")), ..row(ffi::mf_questions) };
        let wrong = FileRow { expected: |_| Ok(Answer::default()), ..row(ffi::mf_questions) };
        let outcomes = run(&[&raised, &unmade, &wrong], &Progress::new(30));
        let counts = outcomes.iter().map(|outcome| (outcome.compared, outcome.differences));
        assert_eq!(counts.collect::<Vec<_>>(), [(40, 40), (10, 10), (40, 40)]);
        assert!(outcomes[0].shown[0].text.contains("'made up'"), "{}", outcomes[0].shown[0].text);
        assert!(outcomes[1].shown[0].text.contains("'no file'"), "{}", outcomes[1].shown[0].text);
    }

    /// Answers, and refuses with this number the records of which the test holds, but for those
    /// that are none.
    fn refuse(questions: &[u8], answers: &mut [u8], number: u8, wrongly: fn(&[u8]) -> bool) -> u8 {
        let returned = ffi::mf_questions(questions, answers);
        for (record, answer) in questions.chunks_exact(LEN).zip(answers.chunks_exact_mut(LEN)) {
            if returned == 0 && answer[0] != 2 && wrongly(record) {
                answer.fill(0);
                answer[0] = number;
            }
        }
        returned
    }

    /// Programs that err in one thing, and the row that finds each.
    #[test]
    fn rows_find_what_errs_in_the_small() {
        const LAST_CLOCK: [u8; 4] = 86_399_u32.to_le_bytes();
        let asks: [(&str, AskFile); 7] = [
            ("lengths by 0 and by the longest", |q, a| match q.len() {
                65_568 if a.len() == q.len() => 0,
                _ => ffi::mf_questions(q, a),
            }),
            ("lengths by 0 and by the longest", |q, a| match q.len() {
                65_536 => 9,
                _ => ffi::mf_questions(q, a),
            }),
            ("lengths by 0 and by the longest", |q, a| {
                let len = q.len().min(a.len());
                if a.len() > q.len() && len != 0 {
                    return ffi::mf_questions(q, &mut a[..len]);
                }
                ffi::mf_questions(q, a)
            }),
            ("every operation and code", |q, a| {
                let mut questions = q.to_vec();
                questions.chunks_exact_mut(LEN).for_each(|record| record[3] &= 0x7f);
                ffi::mf_questions(&questions, a)
            }),
            ("every clock", |q, a| {
                refuse(q, a, 5, |record| record[0] == 1 && record[8..12] == LAST_CLOCK)
            }),
            ("random, questions of every kind", |q, a| {
                refuse(q, a, 3, |record| record[0] == 0 && record[14] > 12)
            }),
            ("corner arguments", |q, a| {
                refuse(q, a, 4, |record| record[0] == 3 && record[28..] == [u8::MAX; 4])
            }),
        ];
        for (what, ask) in asks {
            let mut rows = files::rows(1, 20_000).into_iter();
            let row = rows.find(|row| row.what == what).expect("a row");
            let row = FileRow { ask, ..row };
            assert!(run(&[&row], &Progress::new(row.len))[0].differences > 0, "{what}");
        }
    }
}
