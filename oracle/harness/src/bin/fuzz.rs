//! Puts any numbers and bytes to the host calls, with guarded slices. Ends with 1 if anything is
//! wrong, or nothing was put. Options: `--seed N`, `--count N` (questions, files of them and
//! portfolios, each put eight times), and to put one again, `--place N`.

use harness::cores::{cores, split};
use harness::fuzz::{host_calls, on_valgrind, tell_of_crashes, Found, Fuzzer};
use harness::options::{self, DEFAULT_SEED};
use harness::progress::Progress;
use mako_fristen_host::ffi;
use std::process::ExitCode;

const DEFAULT_COUNT: u64 = 1_000_000;
/// Under valgrind, which is slower by some fifty times.
const DEFAULT_COUNT_ON_VALGRIND: u64 = 10_000;
/// How many questions a thread takes at a time.
const SHARE: u64 = 32;

fn main() -> ExitCode {
    options::only(&["--seed", "--count", "--place"]);
    let valgrind = on_valgrind();
    let count = if valgrind { DEFAULT_COUNT_ON_VALGRIND } else { DEFAULT_COUNT };
    let seed = options::option("--seed", DEFAULT_SEED);
    let places = match options::given("--place") {
        Some(place) => place..place + 1,
        None => 0..options::option("--count", count),
    };
    tell_of_crashes(seed);
    // Valgrind's errors are counted for the whole program, so there is one thread.
    let threads = if valgrind { 1 } else { cores() };
    let progress = Progress::new(places.end - places.start);
    let work = |fuzzer: &mut Fuzzer, part| {
        let from = places.start + part * SHARE;
        let to = places.end.min(from + SHARE);
        (from..to).for_each(|place| fuzzer.put_at(seed, place));
        progress.add(to - from);
    };
    let fuzzer = || Fuzzer::new(host_calls, ffi::mf_questions, ffi::mf_portfolio);
    let parts = (places.end - places.start).div_ceil(SHARE);
    let fuzzers = progress.shown(|| split(threads, parts, fuzzer, work));
    let found = fuzzers.into_iter().map(|fuzzer| fuzzer.found).fold(Found::default(), Found::and);
    report(&found, seed, valgrind)
}

fn report(found: &Found, seed: u64, valgrind: bool) -> ExitCode {
    let Found { calls, told, wrong, shown, slowest, slowest_question } = found;
    shown.iter().for_each(|wrong| println!("{wrong}"));
    println!("seed {seed}{}", if valgrind { ", under valgrind" } else { "" });
    println!("{told} answers compared with the original");
    println!("slowest {slowest:?}: {slowest_question}");
    println!("fuzz: {calls} calls, {wrong} wrong");
    ExitCode::from(u8::from(*wrong != 0 || *calls == 0))
}
