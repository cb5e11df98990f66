//! Counts for portfolios of contracts, at random and sorted, beside the single calls, numpy's
//! `busday_count` and the original.

use crate::numpy::Numpy;
use crate::{first_of_january, medians};
use harness::days::{self, DAYS};
use harness::random::Random;
use mako_fristen::HolidayCalendar::BdewMaKo;
use mako_fristen_host::{ffi, Answer, Date};
use std::cell::RefCell;
use std::hint::black_box;

const CALL: &str = "mf_portfolio";
/// The most that a call takes.
const PAIRS: usize = 4096;
/// Of them the original gets one in so many: it takes some 0.3 ms for each.
const EVERY: usize = 64;
/// A contract's days: 1 to 20 years.
const SHORTEST: u32 = 365;
const LONGEST: u32 = 7_305;

/// The pairs as each side takes them, and room for their counts.
struct Portfolio {
    what: String,
    from: Vec<u32>,
    to: Vec<u32>,
    dates: Vec<(Date, Date)>,
    originals: Vec<(time::Date, time::Date)>,
    counts: RefCell<Vec<u32>>,
    answer: RefCell<[u8; Answer::LEN]>,
}

impl Portfolio {
    /// Of pairs of indexes.
    fn new(what: String, pairs: &[(u32, u32)]) -> Portfolio {
        let numbers = pairs.iter().map(|&(from, to)| (days::number(from), days::number(to)));
        let (from, to) = numbers.unzip();
        let dates = pairs.iter().map(|&(from, to)| (days::date(from), days::date(to))).collect();
        let originals = pairs.iter().step_by(EVERY);
        let originals = originals.map(|&(from, to)| (days::day(from), days::day(to))).collect();
        let (counts, answer) = (vec![0; pairs.len()], [0; Answer::LEN]);
        let (counts, answer) = (RefCell::new(counts), RefCell::new(answer));
        Portfolio { what, from, to, dates, originals, counts, answer }
    }

    fn name(&self) -> String {
        format!("{CALL} {}", self.what)
    }

    fn in_a_call(&self) {
        let (mut counts, mut answer) = (self.counts.borrow_mut(), self.answer.borrow_mut());
        let (from, to) = (black_box(&*self.from), black_box(&*self.to));
        black_box(ffi::mf_portfolio(from, to, black_box(&mut *counts), black_box(&mut *answer)));
    }

    /// Puts each pair to the single call, and its count into the list.
    fn one_by_one(&self) {
        let (mut counts, mut answer) = (self.counts.borrow_mut(), self.answer.borrow_mut());
        for ((from, to), count) in black_box(&self.dates).iter().zip(counts.iter_mut()) {
            let answer = &mut *answer;
            black_box(ffi::mf_werktage_between(
                from.year, from.month, from.day, to.year, to.month, to.day, answer,
            ));
            *count = number_at(answer);
        }
    }

    fn to_the_original(&self) {
        let mut counts = self.counts.borrow_mut();
        let pairs = black_box(&self.originals).iter();
        for (&(from, to), count) in pairs.zip(counts.iter_mut().step_by(EVERY)) {
            *count = black_box(mako_fristen::werktage_between(from, to, BdewMaKo));
        }
    }

    /// What one way to count leaves in the list, of which each entry was another before.
    fn counted(&self, way: fn(&Portfolio)) -> Vec<u32> {
        self.counts.replace(vec![u32::MAX; PAIRS]);
        way(self);
        self.counts.borrow().clone()
    }

    /// The counts and how many runs there are, if the single calls and the original count the same.
    fn sound(&self) -> (Vec<u32>, u32) {
        let counts = self.counted(Portfolio::in_a_call);
        let answer = *self.answer.borrow();
        assert!(answer[0] == 0 && counts.len() == PAIRS, "a portfolio is refused");
        assert_eq!(counts, self.counted(Portfolio::one_by_one), "a single call differs");
        let walked = self.counted(Portfolio::to_the_original);
        let of_walked =
            |counts: &[u32]| counts.iter().step_by(EVERY).copied().collect::<Vec<u32>>();
        assert_eq!(of_walked(&counts), of_walked(&walked), "the original differs");
        (counts, number_at(&answer))
    }
}

/// Bytes 4 to 7 of an answer.
fn number_at(answer: &[u8; Answer::LEN]) -> u32 {
    u32::from_le_bytes([answer[4], answer[5], answer[6], answer[7]])
}

/// Contracts that begin in these years, at random and sorted by their beginning.
fn contracts(first: u16, last: u16) -> [Portfolio; 2] {
    let mut random = Random::at(4, first.into(), 0);
    let (first_day, end) = (first_of_january(first), first_of_january(last + 1));
    assert!(end - 1 + LONGEST < DAYS, "a contract would leave the calendar");
    let pair = |_| {
        let from = first_day + random.below(end - first_day);
        (from, from + SHORTEST + random.below(LONGEST - SHORTEST + 1))
    };
    let mut pairs: Vec<(u32, u32)> = (0..PAIRS).map(pair).collect();
    let at_random = Portfolio::new(format!("random, {first} to {last}"), &pairs);
    pairs.sort_unstable();
    [at_random, Portfolio::new(format!("sorted, {first} to {last}"), &pairs)]
}

fn print_row(portfolio: &Portfolio, numpy: Option<&(f64, Vec<u32>)>) {
    let (counts, runs) = portfolio.sound();
    let numpy = numpy.map(|(time, numpys)| {
        assert!(counts == *numpys, "numpy's counts differ");
        time / PAIRS as f64
    });
    let [ours, single, original] =
        medians([&|| portfolio.in_a_call(), &|| portfolio.one_by_one(), &|| {
            portfolio.to_the_original()
        }]);
    let [ours, single] = [ours, single].map(|time| time / PAIRS as f64);
    let original = original / portfolio.originals.len() as f64;
    let [by_numpy, numpy] = [numpy.map(|numpy| numpy / ours), numpy].map(told);
    let (name, by_original) = (portfolio.name(), original / ours);
    println!(
        "{name:33} {runs:5} {ours:8.1} {single:8.1} {numpy:>8} {by_numpy:>6} {original:10.1} \
         {by_original:8.1}"
    );
}

fn told(number: Option<f64>) -> String {
    number.map_or_else(String::new, |number| format!("{number:.1}"))
}

/// Prints nanoseconds per pair of each portfolio, and how often ours fits into numpy's and the
/// original's.
pub fn print(only: &str) {
    let portfolios = [contracts(1996, 2879), contracts(2000, 2040)];
    let portfolios = portfolios.into_iter().flatten();
    let portfolios: Vec<Portfolio> = portfolios.filter(|p| p.name().contains(only)).collect();
    if portfolios.is_empty() {
        return;
    }
    println!(
        "Nanoseconds per pair of portfolios of {PAIRS} contracts of 1 to 20 years, which begin in"
    );
    println!("these years. The original gets one in {EVERY}.");
    let lists: Vec<[&[u32]; 2]> = portfolios.iter().map(|p| [&*p.from, &*p.to]).collect();
    let numpy = Numpy::asked(&lists);
    match &numpy {
        Some(Numpy { version, holidays, .. }) => println!(
            "numpy {version}: busday_count with the {holidays} weekday holidays, the best of 1000 runs."
        ),
        None => println!("There is no numpy for /usr/bin/python3 (Debian's python3-numpy)."),
    }
    println!(
        "{:33} {:>5} {:>8} {:>8} {:>8} {:>6} {:>10} {:>8}",
        "call", "runs", "ours", "single", "numpy", "ratio", "original", "ratio"
    );
    for (place, portfolio) in portfolios.iter().enumerate() {
        print_row(portfolio, numpy.as_ref().map(|numpy| &numpy.counted[place]));
    }
}
