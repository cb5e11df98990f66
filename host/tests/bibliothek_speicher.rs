//! No call takes memory from the heap, so a service may ask where it must not wait for any. What
//! puts any number of questions does, for them and their answers.

use mako_fristen_host::{
    answer_records, answers, check_archive, ffi, fragen, portfolio, portfolio_counts, Answer, Call,
    ContrlAnlass, Date, Error, Frage, Instant, Question, Reason, Refusal, MOST_PAIRS,
};
use std::alloc::{GlobalAlloc, Layout, System};
use std::cell::Cell;

thread_local! {
    static TAKEN: Cell<u32> = const { Cell::new(0) };
}

/// The system's, with a count of what this thread takes.
struct Counting;

#[global_allocator]
static HEAP: Counting = Counting;

// SAFETY: both are the system's own, with the arguments as they came.
unsafe impl GlobalAlloc for Counting {
    unsafe fn alloc(&self, layout: Layout) -> *mut u8 {
        TAKEN.set(TAKEN.get() + 1);
        unsafe { System.alloc(layout) }
    }

    unsafe fn dealloc(&self, memory: *mut u8, layout: Layout) {
        unsafe { System.dealloc(memory, layout) }
    }
}

/// How often `work` takes memory.
fn taken(work: impl FnOnce()) -> u32 {
    let before = TAKEN.get();
    work();
    TAKEN.get() - before
}

#[test]
fn what_is_taken_is_counted() {
    assert_eq!(taken(|| drop(Box::new(1))), 1);
}

#[test]
fn no_answer_and_no_error_takes_memory() {
    assert_eq!(taken(|| assert_eq!(check_archive(), Ok(()))), 0);
    let reason = Reason::new(b"Z33").expect("three bytes");
    for call in Call::ALL {
        let question = Question {
            date2: Date::new(2026, 4, 7),
            instant2: Instant::new(1_775_512_800, 0),
            date: Date::new(2026, 4, 2),
            instant: Instant::new(1_775_080_800, 0),
            ..Question::new(call).with_count(1).with_reason(reason)
        };
        assert_eq!(taken(|| assert!(question.answer().is_ok())), 0, "{question}");
        let refused = Question { code: 99, ..Question::new(call) };
        let refuses = || {
            let refusal = refused.answer().err().and_then(Error::refusal);
            assert!(refusal.is_some_and(|refusal| refusal < Refusal::NoClock));
        };
        assert_eq!(taken(refuses), 0, "{refused}");
        let unreadable = Answer::default().with_kind(200);
        assert_eq!(taken(|| assert!(unreadable.checked(call).is_err())), 0, "{call:?}");
    }
}

/// The records, the answers as they are lent, and the answers as they are given: not one by one,
/// nor file by file.
#[test]
fn a_days_questions_take_memory_three_times() {
    let received = Instant::new(1_775_080_800, 0);
    let frage = Frage::Contrl { received, anlass: ContrlAnlass::Regelfall };
    let record = *frage.fragesatz().expect("no clock").as_bytes();
    for count in [1, 2_048, 10_000] {
        let (questions, records) = (vec![frage; count], vec![record; count]);
        assert_eq!(taken(|| assert!(fragen(&questions).iter().all(Result::is_ok))), 3);
        assert_eq!(taken(|| assert!(answers(&questions).iter().all(Result::is_ok))), 3);
        assert_eq!(taken(|| assert!(answer_records(records.as_flattened()).is_ok())), 1);
    }
    let mut lent = [0; Answer::LEN];
    assert_eq!(taken(|| assert_eq!(ffi::mf_questions(&record, &mut lent), 0)), 0);
    assert_eq!(
        taken(|| assert_eq!(frage.answer().ok(), frage.read(&Answer::from_bytes(lent)).ok())),
        0
    );
}

/// The three lists in one piece, and the counts as they are given.
#[test]
fn a_portfolio_takes_memory_twice() {
    let pair = (Date::new(2026, 4, 2), Date::new(2026, 4, 7));
    for count in [1, MOST_PAIRS, 10_000] {
        let pairs = vec![pair; count];
        assert_eq!(taken(|| assert!(portfolio(&pairs).iter().all(Result::is_ok))), 2);
    }
    assert_eq!(taken(|| assert!(portfolio(&[]).is_empty())), 0);
    let (from, to, mut counts) = ([20_545; 9], [20_550; 9], [0; 9]);
    assert_eq!(taken(|| assert_eq!(portfolio_counts(&from, &to, &mut counts), Ok(1))), 0);
    let refuses = || assert!(portfolio_counts(&from, &[], &mut counts).is_err());
    assert_eq!(taken(refuses), 0);
    let mut lent = [0; Answer::LEN];
    let call = || assert_eq!(ffi::mf_portfolio(&from, &to, &mut [0; 9], &mut lent), 0);
    assert_eq!(taken(call), 0);
}
