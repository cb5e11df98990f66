//! The same for portfolios.

use super::{assert_crashes, assert_seen_by_memcheck, read_at, write_at, Erring};
use crate::fuzz::portfolio::PortfolioRound;
use crate::fuzz::{host_calls, tell_of_crashes, Ask, Found, Fuzzer, Place, PortfolioCase};
use crate::original::{count_both_ways, expected_of_portfolio, MOST_PAIRS, OUT_OF_RANGE};
use crate::portfolio::{AskPortfolio, Lens, Portfolio};
use crate::random::Random;
use mako_fristen_host::{ffi, Call};
use std::collections::HashSet;
use std::thread;
use std::time::Duration;

const PLACES: [Place; 4] = [Place::Among(12), Place::AfterPage, Place::BeforePage, Place::Heap];
/// 2 April 2026 to the Tuesday after Easter; a pair out of range; the first pair turned; a day of the
/// next year with itself.
const PAIRS: [(u32, u32); 4] =
    [(20_545, 20_550), (20_545, 339_676), (20_550, 20_545), (20_819, 20_819)];
const WHOLE: Lens = [4, 4, 4, 32];

/// The pairs with these lengths, at each of the places.
fn case(lens: Lens, places: &[Place]) -> PortfolioCase {
    let random = &mut Random::at(5, 6, 7);
    let lent = Portfolio::new(&PAIRS, random);
    let round = |&place: &Place| PortfolioRound {
        lent: Portfolio::with_lens(&PAIRS, lens, random),
        places: [place; 4],
        guard: 0xa5a5_a5a5,
    };
    let rounds = places.iter().map(round).collect();
    let expected = expected_of_portfolio(&lent, count_both_ways);
    PortfolioCase { pairs: PAIRS.to_vec(), expected, rounds }
}

fn put(ask: AskPortfolio, case: &PortfolioCase) -> Found {
    let mut fuzzer = Fuzzer::new(host_calls, ffi::mf_questions, ask);
    // No call is put again for its time, which would be without guard bytes.
    fuzzer.found.slowest = Duration::MAX;
    fuzzer.put_portfolio(case, 5, 6);
    fuzzer.found
}

/// The fault is found at every place.
fn assert_found(ask: AskPortfolio, lens: Lens, fault: &str) {
    let found = put(ask, &case(lens, &PLACES));
    assert_eq!((found.calls, found.wrong), (4, 4), "{fault}: {:?}", found.shown);
    let told = format!("mf_portfolio of 4 pairs: {fault}");
    assert!(found.shown.iter().all(|shown| shown.starts_with(&told)), "{:?}", found.shown);
    assert!(found.shown[0].contains("oracle/fuzz --seed 5 --place 6"));
}

/// Writes a byte so many entries after the first.
fn write_entry(list: &[u32], by: isize) {
    // SAFETY: none; it is what has to be found.
    unsafe { list.as_ptr().cast_mut().offset(by).cast::<u8>().write_volatile(0x77) }
}

/// As [`read_at`], so many entries after the first.
fn read_entry(list: &[u32], by: isize) -> u8 {
    // SAFETY: none; it is what has to be found.
    let entry = unsafe { list.as_ptr().offset(by).read_volatile() };
    std::hint::black_box(entry) as u8
}

#[test]
fn the_call_is_right() {
    let refused =
        [[4, 4, 4, 31], [4, 4, 3, 32], [3, 4, 4, 32], [4, 0, 4, 32], [4097, 4097, 4097, 32]];
    for lens in refused.into_iter().chain([WHOLE, [4, 5, 6, 0]]) {
        let found = put(ffi::mf_portfolio, &case(lens, &PLACES));
        assert_eq!((found.calls, found.wrong), (4, 0), "{lens:?}: {:?}", found.shown);
        assert_eq!(found.told, if lens == WHOLE { 16 } else { 0 });
    }
}

#[test]
fn a_wrong_count_at_one_place_is_found() {
    let one_more: AskPortfolio = |from, to, counts, answer| {
        let number = ffi::mf_portfolio(from, to, counts, answer);
        counts[2] += 1;
        number
    };
    assert_found(one_more, WHOLE, "count 2: expected 0, got 1");
    let no_range: AskPortfolio = |from, to, counts, answer| {
        let number = ffi::mf_portfolio(from, to, counts, answer);
        counts.iter_mut().filter(|count| **count == OUT_OF_RANGE).for_each(|count| *count = 0);
        number
    };
    assert_found(no_range, WHOLE, "count 1: expected 4294967295, got 0");
}

#[test]
fn the_call_and_the_single_call_have_to_agree() {
    let another: Ask = |question, reason, answer| {
        let number = host_calls(question, reason, answer);
        answer[4] += u8::from(question.call == Call::WerktageBetween);
        number
    };
    let mut fuzzer = Fuzzer::new(another, ffi::mf_questions, ffi::mf_portfolio);
    fuzzer.put_portfolio(&case(WHOLE, &PLACES), 5, 6);
    let Found { wrong, shown, .. } = &fuzzer.found;
    assert_eq!(*wrong, 4);
    assert!(shown[0].contains("count 0: the single call gives 2, got 1"), "{shown:?}");
}

/// Answers with another number of runs.
fn with_runs(
    runs: impl Fn(u8) -> u8,
    lent: [&[u32]; 2],
    counts: &mut [u32],
    answer: &mut [u8],
) -> u8 {
    let number = ffi::mf_portfolio(lent[0], lent[1], counts, answer);
    answer[4] = runs(answer[4]);
    number
}

#[test]
fn runs_that_are_counted_otherwise_are_found() {
    let over_a_pair_out_of_range: AskPortfolio =
        |from, to, counts, answer| with_runs(|runs| runs - 1, [from, to], counts, answer);
    let expected = "expected 0000000003000000";
    assert_found(over_a_pair_out_of_range, WHOLE, expected);
    let no_single_pairs: AskPortfolio =
        |from, to, counts, answer| with_runs(|_| 0, [from, to], counts, answer);
    assert_found(no_single_pairs, WHOLE, expected);
}

#[test]
fn what_goes_by_what_stood_there_is_found() {
    let keeps_a_place: AskPortfolio = |from, to, counts, answer| {
        let before = counts[3];
        let number = ffi::mf_portfolio(from, to, counts, answer);
        counts[3] = before;
        number
    };
    assert_found(keeps_a_place, WHOLE, "count 3: expected 0, got ");
    let keeps_a_byte: AskPortfolio = |from, to, counts, answer| {
        let before = answer[31] | 1;
        let number = ffi::mf_portfolio(from, to, counts, answer);
        answer[31] = before;
        number
    };
    assert_found(keeps_a_byte, WHOLE, "bytes that have to be zero are not");
    assert_found(keeps_a_byte, [4, 4, 3, 32], "bytes that have to be zero are not");
}

#[test]
fn a_wrong_number_is_found() {
    let more: AskPortfolio =
        |from, to, counts, answer| ffi::mf_portfolio(from, to, counts, answer) + 1;
    assert_found(more, WHOLE, "1 returned and not 0");
    assert_found(more, [4, 4, 4, 33], "2 returned and not 1");
    assert_found(more, [4, 5, 4, 32], "11 returned and not 10");
    let not_in_the_answer: AskPortfolio = |_, _, _, answer| {
        answer.fill(0);
        10
    };
    assert_found(not_in_the_answer, [4, 5, 4, 32], "10 returned, but byte 0 is 0");
    let lists_first: AskPortfolio = |from, to, counts, answer| match from.len() == counts.len() {
        true => ffi::mf_portfolio(from, to, counts, answer),
        false => 10,
    };
    assert_found(lists_first, [4, 4, 3, 31], "10 returned and not 1");
    assert_found(
        |_, _, _, _| 0,
        [MOST_PAIRS + 1, MOST_PAIRS + 1, MOST_PAIRS + 1, 32],
        "0 returned",
    );
}

#[test]
fn what_is_written_on_a_refusal_is_found() {
    let on_any: AskPortfolio = |from, to, counts, answer| {
        let number = ffi::mf_portfolio(from, to, counts, answer);
        counts[0] ^= u32::from(number != 0);
        number
    };
    assert_found(on_any, [4, 4, 3, 32], "refused, and the third list was written");
    assert_found(on_any, [4, 4, 4, 31], "refused, and the third list was written");
    let in_the_answer: AskPortfolio = |_, _, _, answer| {
        answer[0] ^= 1;
        1
    };
    assert_found(in_the_answer, [4, 4, 4, 33], "an answer of another length was written");
}

#[test]
fn a_byte_written_elsewhere_is_found() {
    let asks: [(AskPortfolio, &str); 6] = [
        (
            |f, t, c, a| (write_entry(c, c.len() as isize), ffi::mf_portfolio(f, t, c, a)).1,
            "beside",
        ),
        (|f, t, c, a| (write_entry(c, -1), ffi::mf_portfolio(f, t, c, a)).1, "bytes beside the"),
        (
            |f, t, c, a| (write_at(a, a.len() as isize), ffi::mf_portfolio(f, t, c, a)).1,
            "beside the",
        ),
        (|f, t, c, a| (ffi::mf_portfolio(f, t, c, a), write_entry(f, -1)).0, "what is read or"),
        (|f, t, c, a| (ffi::mf_portfolio(f, t, c, a), write_entry(t, 4)).0, "what is read or"),
        (|f, t, c, a| (ffi::mf_portfolio(f, t, c, a), write_entry(t, 3)).0, "what is read or"),
    ];
    for (ask, fault) in asks {
        for lens in [WHOLE, [4, 4, 3, 32], [4, 4, 4, 31]] {
            let found = put(ask, &case(lens, &PLACES[..1]));
            assert_eq!(found.wrong, 1, "{fault}");
            assert!(found.shown[0].contains(fault), "{:?}", found.shown);
        }
    }
}

#[test]
fn an_unknown_panic_of_the_original_is_wrong() {
    let lent = Portfolio::new(&PAIRS, &mut Random::at(5, 6, 7));
    let expected = expected_of_portfolio(&lent, |_, _| panic!("made up"));
    let found = put(ffi::mf_portfolio, &PortfolioCase { expected, ..case(WHOLE, &PLACES) });
    assert_eq!((found.wrong, found.told), (1, 0));
    assert!(found.shown[0].contains("made up"), "{:?}", found.shown);
}

#[test]
fn a_slow_call_is_found() {
    let slow: AskPortfolio = |from, to, counts, answer| {
        thread::sleep(Duration::from_millis(4 * 310));
        ffi::mf_portfolio(from, to, counts, answer)
    };
    let mut fuzzer = Fuzzer::new(host_calls, ffi::mf_questions, slow);
    fuzzer.put_portfolio(&case(WHOLE, &[Place::Heap]), 5, 6);
    let Found { wrong, slowest, slowest_question, .. } = fuzzer.found;
    assert_eq!((wrong, slowest_question.as_str()), (1, "mf_portfolio of 4 pairs"));
    assert!(slowest >= Duration::from_millis(310), "by the pair");
}

#[test]
fn cases_are_of_every_kind_and_length() {
    let cases: Vec<PortfolioCase> = (0..1000).map(|place| PortfolioCase::at(1, place)).collect();
    assert!(cases.iter().all(|case| case.panic().is_none() && case.rounds.len() == 8));
    let lens: HashSet<usize> = cases.iter().map(|case| case.pairs.len()).collect();
    assert!((0..17).chain([MOST_PAIRS]).all(|len| lens.contains(&len)));
    let rounds = || cases.iter().flat_map(|case| &case.rounds);
    for number in [0, 1, 10] {
        let of_number = rounds().filter(|round| round.refusal() == number);
        let [counts, answer] = [2, 3].map(|slice| {
            let places: HashSet<_> = of_number.clone().map(|round| round.places[slice]).collect();
            places.len()
        });
        // 64 alignments of the answer, and three places more.
        assert!(counts > 60 && answer > 60, "{number}: {counts} and {answer}");
    }
    assert_eq!(rounds().filter(|round| round.refusal() == 0).count(), 4000);
    let lens: HashSet<Lens> = rounds().map(|round| round.lent.lens()).collect();
    let met = |are: fn(&Lens) -> bool| lens.iter().any(are);
    assert!(met(|&[from, to, counts, answer]| from != to && to == counts && answer == 32));
    assert!(met(|&[from, to, counts, answer]| to != from && from == counts && answer == 32));
    assert!(met(|&[from, to, counts, answer]| counts != from && from == to && answer == 32));
    assert!(met(|&[from, to, counts, answer]| from == to && to == counts && answer != 32));
    assert!(met(|&[from, to, counts, answer]| from != to && to != counts && answer != 32));
    assert!(met(|lens| lens == &[MOST_PAIRS + 1, MOST_PAIRS + 1, MOST_PAIRS + 1, 32]));
}

#[test]
fn a_touched_page_is_a_crash() {
    let all: [Erring; 3] = [
        ("behind the second list", erring_behind_the_second_list),
        ("before the third list", erring_before_the_third_list),
        ("in an empty list", erring_in_an_empty_list),
    ];
    assert_crashes("portfolio::a_touched_page_is_a_crash", &all);
}

#[test]
fn memcheck_sees_bytes_outside_and_bytes_not_written() {
    let all: [Erring; 5] = [
        ("on the heap", erring_on_the_heap),
        ("by a count", erring_by_a_count),
        ("by a byte", erring_by_a_byte),
        ("by a look on 10", erring_by_a_look_on_10),
        ("by a look on 1", erring_by_a_look_on_1),
    ];
    assert_seen_by_memcheck("portfolio::memcheck_sees_bytes_outside_and_bytes_not_written", &all);
}

fn put_one(ask: AskPortfolio, place: Place, lens: Lens) {
    tell_of_crashes(5);
    put(ask, &case(lens, &[place]));
}

fn erring_behind_the_second_list() {
    put_one(|_, to, _, _| read_entry(to, 4), Place::BeforePage, WHOLE);
}

fn erring_before_the_third_list() {
    put_one(|_, _, counts, _| (write_entry(counts, -1), 10).1, Place::AfterPage, [4, 4, 3, 32]);
}

fn erring_in_an_empty_list() {
    put_one(|from, _, _, _| read_entry(from, 0), Place::BeforePage, [0, 0, 0, 32]);
}

fn erring_on_the_heap() {
    let behind: AskPortfolio = |f, t, c, a| (read_entry(f, 4), ffi::mf_portfolio(f, t, c, a)).1;
    put_one(behind, Place::Heap, WHOLE);
}

fn erring_by_a_count() {
    let but_for_a_place: AskPortfolio = |from, to, counts, answer| {
        let mut all = [0; 4];
        let number = ffi::mf_portfolio(from, to, &mut all, answer);
        counts[..3].copy_from_slice(&all[..3]);
        number
    };
    put_one(but_for_a_place, Place::Among(12), WHOLE);
}

fn erring_by_a_byte() {
    put_one(
        |_, _, _, answer| (answer[..31].fill(0), answer[0] = 10, 10).2,
        Place::Among(12),
        [4, 4, 3, 32],
    );
}

fn erring_by_a_look_on_10() {
    let looks: AskPortfolio = |f, t, c, a| (read_entry(c, 0), ffi::mf_portfolio(f, t, c, a)).1;
    put_one(looks, Place::Among(12), [4, 4, 3, 32]);
}

fn erring_by_a_look_on_1() {
    let looks: AskPortfolio = |f, t, c, a| (read_at(a, 4), ffi::mf_portfolio(f, t, c, a)).1;
    put_one(looks, Place::Among(12), [4, 4, 4, 31]);
}
