//! What errs in a known way has to be found.

mod file;
mod portfolio;

use super::area::{Area, Place};
use super::case::Round;
use super::{host_calls, tell_of_crashes, Ask, Case, Found, Fuzzer};
use crate::original;
use crate::walk::is_far;
use mako_fristen_host::{ffi, Answer, Call, Date, Question, Reason};
use std::hint::black_box;
use std::io::ErrorKind;
use std::os::unix::process::ExitStatusExt;
use std::process::{Command, Output};
use std::time::Duration;
use std::{env, process, thread};

/// `mf_abmeldung_check` of 8 January 2026 against 9 January: TooLate, by 30 days.
fn question() -> Question {
    let question = Question::on(Call::AbmeldungCheck, Date::new(2026, 1, 8));
    let reason = Reason::new(b"Z33").expect("not too long");
    question.with_second(Date::new(2026, 1, 9)).with_code(1).with_reason(reason)
}

fn case(len: usize) -> Case {
    let places = [Place::Among(3), Place::AfterPage, Place::BeforePage, Place::Heap];
    let rounds = places.map(|place| round(place, len));
    let expected = original::expected(&question());
    Case { question: question(), reason: b"Z33".to_vec(), expected, rounds: rounds.into() }
}

fn round(place: Place, len: usize) -> Round {
    Round { place, read_place: place, content: vec![0x5a; len], guard: 0xa5 }
}

/// The faults of the case, one for each place.
fn faults(ask: Ask, case: &Case) -> Vec<String> {
    let mut fuzzer = Fuzzer::new(ask, ffi::mf_questions, ffi::mf_portfolio);
    // No call is put again for its time, which would be without guard bytes.
    fuzzer.found.slowest = Duration::MAX;
    let each = case.rounds.iter().filter_map(|round| fuzzer.round(case, round));
    each.collect()
}

fn assert_found(ask: Ask, len: usize, fault: &str) {
    let faults = faults(ask, &case(len));
    assert_eq!(faults.len(), 4, "{fault}: {faults:?}");
    assert!(faults.iter().all(|found| found.starts_with(fault)), "{faults:?}");
}

#[test]
fn the_host_calls_are_right() {
    for len in [0, 31, 32, 33, 4096] {
        let faults = faults(host_calls, &case(len));
        assert!(faults.is_empty(), "{faults:?}");
    }
}

#[test]
fn a_wrong_expectation_is_found() {
    let case = Case { expected: Ok(Answer::default()), ..case(32) };
    let faults = faults(host_calls, &case);
    assert_eq!(faults.len(), 4);
    assert!(faults[0].starts_with("expected 0000"), "{faults:?}");
}

#[test]
fn an_unknown_panic_of_the_original_is_wrong() {
    let panic = original::caught(|| -> u8 { panic!("made up") }).expect_err("a panic");
    let mut fuzzer = Fuzzer::new(host_calls, ffi::mf_questions, ffi::mf_portfolio);
    fuzzer.put(&Case { expected: Err(panic), ..case(32) }, 1, 2);
    let Found { wrong, told, shown, .. } = &fuzzer.found;
    assert_eq!((*wrong, *told), (1, 0), "{shown:?}");
    assert!(shown[0].contains("mf_abmeldung_check") && shown[0].contains("made up"), "{shown:?}");
}

#[test]
fn an_answer_that_goes_by_what_stood_there_is_found() {
    let keeps_a_byte: Ask = |question, reason, answer| {
        let before = answer[5];
        let number = host_calls(question, reason, answer);
        answer[5] = before;
        number
    };
    assert_found(keeps_a_byte, 32, "expected");
    let mut case = case(32);
    for place in [0, 2, 3] {
        case.rounds[place].content[5] = 0;
    }
    let mut fuzzer = Fuzzer::new(keeps_a_byte, ffi::mf_questions, ffi::mf_portfolio);
    fuzzer.put(&case, 1, 2);
    assert_eq!((fuzzer.found.calls, fuzzer.found.wrong), (4, 1));
    assert!(fuzzer.found.shown[0].contains("oracle/fuzz --seed 1 --place 2"));
}

#[test]
fn a_wrong_number_is_found() {
    let other: Ask = |question, reason, answer| host_calls(question, reason, answer) + 3;
    assert_found(other, 32, "3 returned, but byte 0 is 0");
    assert_found(other, 31, "4 returned for an answer of another length");
    let unlisted: Ask = |_, _, answer| {
        answer.fill(0);
        answer[0] = 9;
        9
    };
    assert_found(unlisted, 32, "refused with 9");
}

#[test]
fn bytes_that_have_to_be_zero_are_looked_at() {
    let in_an_answer: Ask = |question, reason, answer| {
        let number = host_calls(question, reason, answer);
        answer[3] = 1;
        number
    };
    assert_found(in_an_answer, 32, "bytes that have to be zero");
    let in_a_refusal: Ask = |_, _, answer| {
        answer.fill(0);
        (answer[0], answer[31]) = (8, 1);
        8
    };
    assert_found(in_a_refusal, 32, "bytes that have to be zero");
}

/// The last four, where another call than one with a verdict has written them.
#[test]
fn a_margin_is_told_from_bytes_that_have_to_be_zero() {
    let at_the_end: Ask = |question, reason, answer| {
        let number = host_calls(question, reason, answer);
        answer[31] ^= 1;
        number
    };
    assert_found(at_the_end, 32, "expected");
    let question = Question::on(Call::IsWerktag, Date::new(2026, 1, 8));
    let step = Case { question, expected: original::expected(&question), ..case(32) };
    let faults = faults(at_the_end, &step);
    assert_eq!(faults.len(), 4);
    assert!(faults.iter().all(|fault| fault.starts_with("bytes that have to be")), "{faults:?}");
}

#[test]
fn a_written_answer_of_another_length_is_found() {
    let writes: Ask = |_, _, answer| {
        answer[30] ^= 1;
        1
    };
    assert_found(writes, 31, "an answer of another length was written");
}

/// Writes so many bytes after the start of the answer, or of the reason.
fn write_at(slice: &[u8], by: isize) {
    // SAFETY: none; it is what has to be found.
    unsafe { slice.as_ptr().cast_mut().offset(by).write_volatile(0x77) }
}

/// Valgrind leaves out a load whose byte goes nowhere, so this one is kept.
fn read_at(slice: &[u8], by: isize) -> u8 {
    // SAFETY: none; it is what has to be found.
    black_box(unsafe { slice.as_ptr().offset(by).read_volatile() })
}

#[test]
fn a_written_guard_byte_is_found() {
    let asks: [(Ask, &str); 4] = [
        (|q, r, a| (write_at(a, -1), host_calls(q, r, a)).1, "bytes beside the answer"),
        (|q, r, a| (write_at(a, 32), host_calls(q, r, a)).1, "bytes beside the answer"),
        (|q, r, a| (write_at(r, -1), host_calls(q, r, a)).1, "what is read or bytes beside"),
        (|q, r, a| (host_calls(q, r, a), write_at(r, 3)).0, "what is read or bytes beside"),
    ];
    for (ask, expected) in asks {
        let among = Case { rounds: vec![round(Place::Among(3), 32)], ..case(32) };
        let faults = faults(ask, &among);
        assert!(faults.len() == 1 && faults[0].starts_with(expected), "{faults:?}");
    }
}

#[test]
fn a_written_reason_is_found() {
    assert_found(|q, r, a| (host_calls(q, r, a), write_at(r, 2)).0, 32, "what is read or bytes");
}

#[test]
fn a_slow_call_is_found() {
    let slow: Ask = |question, reason, answer| {
        thread::sleep(Duration::from_millis(310));
        host_calls(question, reason, answer)
    };
    let found = put_one(slow, Place::Heap, 32, b"Z33");
    assert_eq!(found.wrong, 1);
    assert!(found.slowest >= Duration::from_millis(310));
    assert_eq!(found.slowest_question, question().to_string());
}

#[test]
fn slices_lie_where_they_should() {
    let mut area = Area::new(100);
    for by in 0..64 {
        let mut lent = area.lend(Place::Among(by), &[1, 2, 3], 9);
        assert_eq!(lent.slice().as_ptr() as usize % 64, by);
        assert!(lent.slice() == [1, 2, 3] && lent.is_intact());
    }
    let page = |lent: &[u8]| lent.as_ptr() as usize % 4096;
    assert_eq!(page(area.lend(Place::AfterPage, &[0; 70], 9).slice()), 0);
    assert_eq!(page(area.lend(Place::BeforePage, &[0; 70], 9).slice()), 4096 - 70);
    assert_eq!(page(area.lend(Place::BeforePage, &[], 9).slice()), 0);
    assert_eq!(area.lend(Place::Heap, &[], 9).slice().as_ptr() as usize, 1);
}

#[test]
fn lists_lie_where_numbers_may() {
    let mut area = Area::<u32>::new(100);
    for by in 0..64 {
        let mut lent = area.lend(Place::Among(by), &[1, 2, 3], 9);
        assert_eq!(lent.slice().as_ptr() as usize % 64, by / 4 * 4);
        assert!(lent.is_unchanged(&[1, 2, 3]) && !lent.is_unchanged(&[1, 2, 4]));
    }
    let page = |lent: &[u32]| lent.as_ptr() as usize % 4096;
    assert_eq!(page(area.lend(Place::AfterPage, &[0; 70], 9).slice()), 0);
    assert_eq!(page(area.lend(Place::BeforePage, &[0; 70], 9).slice()), 4096 - 4 * 70);
    assert_eq!(page(area.lend(Place::BeforePage, &[], 9).slice()), 0);
    assert_eq!(area.lend(Place::Heap, &[], 9).slice().as_ptr() as usize, 4);
}

#[test]
fn cases_are_of_every_call_place_and_length() {
    let cases: Vec<Case> = (0..3200).map(|place| Case::at(1, place)).collect();
    assert!(Call::ALL.iter().all(|&call| cases.iter().any(|case| case.question.call == call)));
    let rounds = || cases.iter().flat_map(|case| &case.rounds);
    assert!((0..71).all(|len| rounds().any(|round| round.content.len() == len)));
    assert!(rounds().any(|round| round.content.len() == 4096));
    assert!((0..64).all(|by| rounds().any(|round| round.place == Place::Among(by))));
    assert!(cases.iter().any(|case| case.reason.len() > 200));
    assert!(cases.iter().all(|case| case.expected.is_ok()));
    assert!(cases.iter().any(|case| is_far(&case.question)));
}

/// The variable that tells a program of its own which one errs there.
const ERRING: &str = "FUZZ_TESTS_ERRING";

/// What errs, and its name.
type Erring = (&'static str, fn());

/// Runs each of these in a program of its own, where the same test comes here again, and errs. None
/// is run where there is no valgrind to run it under, but in CI there has to be.
fn run_erring(test: &str, all: &[Erring], under: &[&str]) -> Vec<(&'static str, Output)> {
    if let Ok(asked) = env::var(ERRING) {
        let (_, err) = all.iter().find(|(name, _)| *name == asked).expect("one of these");
        err();
        process::exit(0);
    }
    let program = env::current_exe().expect("this program");
    let test = format!("fuzz::tests::{test}");
    let mut outputs = Vec::new();
    for &(name, _) in all {
        let mut command = match under {
            [] => Command::new(&program),
            [first, rest @ ..] => {
                let mut command = Command::new(first);
                command.args(rest).arg(&program);
                command
            }
        };
        match command.args(["--exact", test.as_str()]).env(ERRING, name).output() {
            Err(error) if error.kind() == ErrorKind::NotFound && !is_ci() => {}
            output => outputs.push((name, output.expect("the program runs"))),
        }
    }
    outputs
}

fn is_ci() -> bool {
    env::var("CI").is_ok_and(|ci| ci == "true")
}

/// Each of these is a crash, which tells the place.
fn assert_crashes(test: &str, all: &[Erring]) {
    const SIGSEGV: i32 = 11;
    for (name, output) in run_erring(test, all, &[]) {
        assert_eq!(output.status.signal(), Some(SIGSEGV), "{name}");
        let told = String::from_utf8_lossy(&output.stderr);
        assert!(told.contains("again: oracle/fuzz --seed 5 --place 6\n"), "{name}: {told}");
    }
}

/// Each of these is an error for memcheck.
fn assert_seen_by_memcheck(test: &str, all: &[Erring]) {
    const VALGRIND: [&str; 3] = ["valgrind", "--quiet", "--error-exitcode=99"];
    for (name, output) in run_erring(test, all, &VALGRIND) {
        assert_eq!(output.status.code(), Some(99), "{name}");
    }
}

#[test]
fn a_touched_page_is_a_crash() {
    let all: [Erring; 3] = [
        ("before a page", erring_before_a_page),
        ("after a page", erring_after_a_page),
        ("by an empty reason", erring_by_an_empty_reason),
    ];
    assert_crashes("a_touched_page_is_a_crash", &all);
}

#[test]
fn memcheck_sees_bytes_outside_and_bytes_not_written() {
    let all: [Erring; 3] = [
        ("on the heap", erring_on_the_heap),
        ("by an unwritten byte", erring_by_an_unwritten_byte),
        ("by a look", erring_by_a_look),
    ];
    assert_seen_by_memcheck("memcheck_sees_bytes_outside_and_bytes_not_written", &all);
}

/// Puts the case at the place, with this reason.
fn put_one(ask: Ask, place: Place, len: usize, reason: &[u8]) -> Found {
    tell_of_crashes(5);
    let mut fuzzer = Fuzzer::new(ask, ffi::mf_questions, ffi::mf_portfolio);
    let rounds = vec![round(place, len)];
    fuzzer.put(&Case { reason: reason.to_vec(), rounds, ..case(len) }, 5, 6);
    fuzzer.found
}

fn erring_before_a_page() {
    put_one(|q, r, a| (write_at(a, 32), host_calls(q, r, a)).1, Place::BeforePage, 32, b"Z33");
}

fn erring_after_a_page() {
    put_one(|_, _, a| read_at(a, -1), Place::AfterPage, 32, b"Z33");
}

fn erring_by_an_empty_reason() {
    put_one(|_, reason, _| read_at(reason, 0), Place::BeforePage, 32, b"");
}

fn erring_on_the_heap() {
    put_one(|q, r, a| (read_at(r, 3), host_calls(q, r, a)).1, Place::Heap, 32, b"Z33");
}

fn erring_by_an_unwritten_byte() {
    put_one(|_, _, answer| (answer[..31].fill(0), 0).1, Place::Among(3), 32, b"Z33");
}

fn erring_by_a_look() {
    put_one(|_, _, answer| (read_at(answer, 4), 1).1, Place::Among(3), 31, b"Z33");
}
