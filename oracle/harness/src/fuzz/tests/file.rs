//! The same for files of questions.

use super::{assert_crashes, assert_seen_by_memcheck, read_at, round, write_at, Erring};
use crate::fuzz::{host_calls, tell_of_crashes, FileCase, Found, Fuzzer, Place};
use crate::original;
use crate::records::{self, LEN};
use crate::rows::files::AskFile;
use mako_fristen_host::{ffi, Answer, Call, Date, Question};
use std::collections::HashSet;
use std::thread;
use std::time::Duration;

const PLACES: [Place; 4] = [Place::Among(3), Place::AfterPage, Place::BeforePage, Place::Heap];

/// So many bytes of it, at each of the places with so many for the answers.
fn case([len, answers]: [usize; 2], places: &[Place]) -> FileCase {
    let questions = records::four()[..len].to_vec();
    let records = records::each(&questions);
    let expected = records.map(original::expected_of_record).collect();
    let rounds = places.iter().map(|&place| round(place, answers)).collect();
    FileCase { questions, expected, rounds }
}

fn put(ask: AskFile, case: &FileCase) -> Found {
    let mut fuzzer = Fuzzer::new(host_calls, ask, ffi::mf_portfolio);
    // No call is put again for its time, which would be without guard bytes.
    fuzzer.found.slowest = Duration::MAX;
    fuzzer.put_file(case, 5, 6);
    fuzzer.found
}

/// The fault is found at every place.
fn assert_found(ask: AskFile, lens: [usize; 2], fault: &str) {
    let found = put(ask, &case(lens, &PLACES));
    assert_eq!((found.calls, found.wrong), (4, 4), "{fault}: {:?}", found.shown);
    let told = format!("mf_questions of {} bytes: {fault}", lens[0]);
    assert!(found.shown.iter().all(|shown| shown.starts_with(&told)), "{:?}", found.shown);
    assert!(found.shown[0].contains("oracle/fuzz --seed 5 --place 6"));
}

#[test]
fn the_call_is_right() {
    for lens in [[0, 0], [32, 32], [128, 128], [0, 1], [1, 1], [33, 33], [128, 127], [128, 160]] {
        let found = put(ffi::mf_questions, &case(lens, &PLACES));
        assert_eq!((found.calls, found.wrong), (4, 0), "{lens:?}: {:?}", found.shown);
    }
}

#[test]
fn an_answer_in_another_place_is_found() {
    let one_off: AskFile = |questions, answers| {
        let number = ffi::mf_questions(questions, answers);
        answers.rotate_right(LEN);
        number
    };
    assert_found(one_off, [128, 128], "answer 0: expected 0000");
}

#[test]
fn a_question_without_an_answer_is_found() {
    let last_left_out: AskFile = |questions, answers| {
        let end = questions.len() - LEN;
        ffi::mf_questions(&questions[..end], &mut answers[..end])
    };
    assert_found(last_left_out, [128, 128], "answer 3: ");
}

#[test]
fn a_file_and_the_single_calls_have_to_agree() {
    let another: AskFile = |questions, answers| {
        let number = ffi::mf_questions(questions, answers);
        answers[2 * LEN + 8] ^= 1;
        number
    };
    let mut answers = [0; 128];
    another(&records::four(), &mut answers);
    let expected = records::each(&answers).map(|&answer| Ok(Answer::from_bytes(answer))).collect();
    let as_the_file = FileCase { expected, ..case([128, 128], &PLACES) };
    let found = put(another, &as_the_file);
    assert_eq!((found.wrong, found.told), (4, 16));
    assert!(found.shown[0].contains("answer 2: expected 0000"), "{:?}", found.shown);
    let found = put(ffi::mf_questions, &as_the_file);
    assert_eq!((found.wrong, found.told), (4, 16), "what the original says counts as well");
}

#[test]
fn bytes_that_have_to_be_zero_are_looked_at_in_each_answer() {
    let in_an_answer: AskFile = |questions, answers| {
        let number = ffi::mf_questions(questions, answers);
        answers[2 * LEN + 31] = 1;
        number
    };
    assert_found(in_an_answer, [128, 128], "answer 2: bytes that have to be zero");
    let unlisted: AskFile = |questions, answers| {
        let number = ffi::mf_questions(questions, answers);
        answers[LEN..2 * LEN].fill(0);
        answers[LEN] = 9;
        number
    };
    assert_found(unlisted, [128, 128], "answer 1: refused with 9");
}

/// Case E beside a CONTRL: only its answer has a margin.
#[test]
fn a_margin_is_told_from_bytes_that_have_to_be_zero() {
    let verdict = Question::on(Call::VorlaufCheck, Date::new(2026, 1, 10)).with_count(1);
    let verdict = records::written(&verdict.with_second(Date::new(2026, 1, 12)), [0; LEN]);
    let questions = [&records::four()[..LEN], &verdict].concat();
    let expected = records::each(&questions).map(original::expected_of_record).collect();
    let with_a_verdict = FileCase { questions, expected, ..case([64, 64], &PLACES) };
    assert_eq!(put(ffi::mf_questions, &with_a_verdict).wrong, 0);
    let of_the_verdict: AskFile = |questions, answers| {
        let number = ffi::mf_questions(questions, answers);
        answers[63] ^= 1;
        number
    };
    let of_the_other: AskFile = |questions, answers| {
        let number = ffi::mf_questions(questions, answers);
        answers[31] ^= 1;
        number
    };
    let asks = [(of_the_verdict, "answer 1: expected"), (of_the_other, "answer 0: bytes that")];
    for (ask, fault) in asks {
        let found = put(ask, &with_a_verdict);
        assert_eq!(found.wrong, 4, "{fault}");
        assert!(found.shown.iter().all(|shown| shown.contains(fault)), "{:?}", found.shown);
    }
}

#[test]
fn a_wrong_number_is_found() {
    assert_found(|q, a| ffi::mf_questions(q, a) + 3, [128, 128], "3 returned");
    assert_found(|_, _| 9, [0, 0], "9 returned");
    assert_found(|_, _| 1, [128, 96], "1 returned for a file of another length");
    assert_found(|_, _| 0, [33, 33], "0 returned for a file of another length");
}

#[test]
fn an_answer_written_on_a_9_is_found() {
    let writes: AskFile = |_, answers| {
        answers[0] = 9;
        9
    };
    assert_found(writes, [128, 96], "refused, and the answers were written");
    assert_found(writes, [31, 31], "refused, and the answers were written");
}

#[test]
fn a_byte_written_elsewhere_is_found() {
    let asks: [(AskFile, &str); 4] = [
        (|q, a| (write_at(a, a.len() as isize), ffi::mf_questions(q, a)).1, "bytes beside"),
        (|q, a| (write_at(a, -1), ffi::mf_questions(q, a)).1, "bytes beside"),
        (|q, a| (ffi::mf_questions(q, a), write_at(q, -1)).0, "what is read or bytes"),
        (|q, a| (ffi::mf_questions(q, a), write_at(q, 128)).0, "what is read or bytes"),
    ];
    for (ask, fault) in asks {
        for lens in [[128, 128], [128, 96]] {
            let found = put(ask, &case(lens, &PLACES[..1]));
            assert_eq!(found.wrong, 1);
            assert!(found.shown[0].contains(fault), "{:?}", found.shown);
        }
    }
    assert_found(|q, a| (ffi::mf_questions(q, a), write_at(q, 40)).0, [128, 128], "what is read");
}

#[test]
fn a_slow_call_is_found() {
    let slow: AskFile = |questions, answers| {
        thread::sleep(Duration::from_millis(4 * 310));
        ffi::mf_questions(questions, answers)
    };
    let mut fuzzer = Fuzzer::new(host_calls, slow, ffi::mf_portfolio);
    fuzzer.put_file(&case([128, 128], &[Place::Heap]), 5, 6);
    let Found { wrong, slowest, slowest_question, .. } = fuzzer.found;
    assert_eq!((wrong, slowest_question.as_str()), (1, "mf_questions of 128 bytes"));
    assert!(slowest >= Duration::from_millis(310), "by the question");
}

#[test]
fn cases_are_of_every_kind_and_length() {
    let cases: Vec<FileCase> = (0..1000).map(|place| FileCase::at(1, place)).collect();
    let lens = || cases.iter().map(|case| case.questions.len());
    let short: HashSet<usize> = lens().filter(|&len| len < 71).collect();
    assert!(short.len() > 35 && [0, 32, 64].iter().all(|len| short.contains(len)), "{short:?}");
    assert!(lens().any(|len| len > 50_000 && len % LEN == 0) && lens().any(|len| len > 65_536));
    let refused = |&len: &usize| records::is_refused(len, len);
    assert!((50..150).contains(&lens().filter(refused).count()));
    assert!(cases.iter().all(|case| case.panic().is_none()));
    for FileCase { questions, rounds, .. } in &cases {
        let same = rounds.iter().filter(|round| round.content.len() == questions.len());
        assert_eq!((same.count(), rounds.len()), (4, 8));
    }
}

#[test]
fn a_touched_page_is_a_crash() {
    let all: [Erring; 2] = [
        ("behind the questions", erring_behind_the_questions),
        ("behind the answers", erring_behind_the_answers),
    ];
    assert_crashes("file::a_touched_page_is_a_crash", &all);
}

#[test]
fn memcheck_sees_bytes_outside_and_bytes_not_written() {
    let all: [Erring; 3] = [
        ("on the heap", erring_on_the_heap),
        ("by an answer", erring_by_an_answer),
        ("by a look", erring_by_a_look),
    ];
    assert_seen_by_memcheck("file::memcheck_sees_bytes_outside_and_bytes_not_written", &all);
}

fn put_one(ask: AskFile, place: Place, lens: [usize; 2]) {
    tell_of_crashes(5);
    put(ask, &case(lens, &[place]));
}

fn erring_behind_the_questions() {
    put_one(|q, a| (read_at(q, 128), ffi::mf_questions(q, a)).1, Place::BeforePage, [128, 128]);
}

fn erring_behind_the_answers() {
    put_one(|q, a| (write_at(a, 96), ffi::mf_questions(q, a)).1, Place::BeforePage, [128, 96]);
}

fn erring_on_the_heap() {
    put_one(|q, a| (read_at(q, 128), ffi::mf_questions(q, a)).1, Place::Heap, [128, 128]);
}

fn erring_by_an_answer() {
    let but_for_a_byte: AskFile = |questions, answers| {
        let mut all = [0; 128];
        let number = ffi::mf_questions(questions, &mut all);
        answers[..127].copy_from_slice(&all[..127]);
        number
    };
    put_one(but_for_a_byte, Place::Among(3), [128, 128]);
}

fn erring_by_a_look() {
    put_one(|_, answers| (read_at(answers, 4), 9).1, Place::Among(3), [128, 96]);
}
