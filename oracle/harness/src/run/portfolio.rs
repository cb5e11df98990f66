//! Portfolios, each put to one call and pair by pair to the original and to our single call.

use super::guarded::Guarded;
use super::{hex, Places, Put, SHOWN};
use crate::original::{caught, expected_of_portfolio, Left};
use crate::portfolio::{self, Portfolio, CALL};
use crate::rows::portfolios::{PortfolioProbe, PortfolioRow};
use mako_fristen_host::Question;

impl Places for PortfolioRow {
    fn call(&self) -> &'static str {
        CALL
    }

    fn what(&self) -> &'static str {
        self.what
    }

    fn places(&self) -> u64 {
        self.len
    }

    fn told(&self, place: u64) -> String {
        (self.probe)(place).lent.to_string()
    }

    fn put(&self, place: u64) -> Put {
        match caught(|| (self.probe)(place)) {
            Ok(probe) => compared(self, &probe),
            Err(panic) => Put::unmade(place, &panic),
        }
    }
}

/// Each pair is a comparison; a call without any, refused or empty, is one.
fn compared(row: &PortfolioRow, PortfolioProbe { lent, guard }: &PortfolioProbe) -> Put {
    let [from, to] = [&lent.from, &lent.to].map(|list| Guarded::new(list, *guard));
    let mut counts = Guarded::new(&lent.counts, *guard);
    let mut answer = Guarded::new(&lent.answer, *guard as u8);
    let number = (row.ask)(from.slice(), to.slice(), counts.slice_mut(), answer.slice_mut());
    let expected = match expected_of_portfolio(lent, row.count) {
        Ok(expected) => expected,
        Err(panic) => return Put::one(Some(format!("{lent}: {panic}"))),
    };
    let fault = if number != expected.number {
        Some(format!("{number} returned and not {}", expected.number))
    } else if !counts.is_intact() || !answer.is_intact() {
        Some(String::from("bytes beside the third list or the answer were written"))
    } else if !from.is_intact() || !to.is_intact() {
        Some(String::from("bytes beside the two lists were written"))
    } else if from.slice() != lent.from || to.slice() != lent.to {
        Some(String::from("the two lists were written"))
    } else if answer.slice() != expected.answer {
        let [expected, got] = [&expected.answer, answer.slice()].map(hex);
        Some(format!("\n    expected {expected}\n    got      {got}"))
    } else if number != 0 && counts.slice() != expected.counts {
        Some(String::from("refused, and the third list was written"))
    } else {
        None
    };
    let of_call = Put::one(fault.map(|fault| format!("{lent}: {fault}")));
    if expected.number != 0 || lent.from.is_empty() {
        return of_call;
    }
    let mut put = of_pairs(row, lent, &expected, counts.slice());
    // A fault beside right counts counts as one, and beside wrong ones as these.
    put.differences = put.differences.max(of_call.differences);
    put.shown.splice(0..0, of_call.shown);
    put
}

/// Each pair and its count.
fn of_pairs(row: &PortfolioRow, lent: &Portfolio, expected: &Left, counts: &[u32]) -> Put {
    let mut put = Put { compared: 0, differences: 0, shown: Vec::new() };
    let counts = expected.counts.iter().zip(counts);
    for (place, (pair, (&expected, &got))) in lent.pairs().zip(counts).enumerate() {
        put.compared += 1;
        let single = if row.singles { portfolio::single(pair, Question::ask) } else { None };
        let single = single.unwrap_or(got);
        if (expected, single) == (got, got) {
            continue;
        }
        put.differences += 1;
        if put.shown.len() < SHOWN {
            let (of, pair) = (lent.from.len(), portfolio::told(pair));
            let told = format!("expected {expected}, by the single call {single}, got {got}");
            put.shown.push(format!("{CALL}, {place} of {of}: {pair}\n    {told}"));
        }
    }
    put
}

#[cfg(test)]
mod tests {
    use super::compared;
    use crate::original::count_both_ways;
    use crate::portfolio::{AskPortfolio, Lens, Portfolio};
    use crate::progress::Progress;
    use crate::random::Random;
    use crate::rows::portfolios::{self, PortfolioProbe, PortfolioRow};
    use crate::run::{run, Put};
    use mako_fristen_host::ffi;

    /// 2 April 2026 to the Tuesday after Easter, a pair out of range, a day of the next year with
    /// itself.
    const PAIRS: [(u32, u32); 3] = [(20_545, 20_550), (9495, 20_550), (20_819, 20_819)];
    const WHOLE: Lens = [3, 3, 3, 32];

    fn probe(lens: Lens) -> PortfolioProbe {
        let lent = Portfolio::with_lens(&PAIRS, lens, &mut Random::at(1, 2, 3));
        PortfolioProbe { lent, guard: 0xa5a5_a5a5 }
    }

    fn row(ask: AskPortfolio) -> PortfolioRow {
        let probe = Box::new(|_| probe(WHOLE));
        PortfolioRow { what: "", len: 10, probe, ask, count: count_both_ways, singles: true }
    }

    fn put(ask: AskPortfolio, lens: Lens) -> Put {
        compared(&row(ask), &probe(lens))
    }

    fn assert_found(ask: AskPortfolio, lens: Lens, differences: u64, told: &str) {
        let put = put(ask, lens);
        assert_eq!(put.differences, differences, "{:?}", put.shown);
        assert!(put.shown[0].contains(told), "{:?}", put.shown);
    }

    /// Writes a byte so many entries after the first.
    fn write_at<T>(slice: &[T], by: isize) {
        // SAFETY: none; it is what has to be found.
        unsafe { slice.as_ptr().cast_mut().offset(by).cast::<u8>().write_volatile(0x77) }
    }

    #[test]
    fn the_call_is_right_and_every_pair_a_comparison() {
        let lens = [(WHOLE, 3), ([0, 0, 0, 32], 1), ([3, 3, 2, 32], 1), ([3, 3, 3, 31], 1)];
        for (lens, comparisons) in lens {
            let put = put(ffi::mf_portfolio, lens);
            assert_eq!((put.compared, put.differences), (comparisons, 0), "{:?}", put.shown);
        }
        let row = row(ffi::mf_portfolio);
        let outcome = run(&[&row], &Progress::new(10)).remove(0);
        assert_eq!((outcome.put, outcome.compared, outcome.differences), (10, 30, 0));
        assert!(outcome.is_whole(&row));
    }

    #[test]
    fn a_wrong_count_is_a_difference() {
        let turned: AskPortfolio = |from, to, counts, answer| {
            let number = ffi::mf_portfolio(from, to, counts, answer);
            counts.swap(0, 1);
            number
        };
        let told = "mf_portfolio, 0 of 3: 20545 and 20550, 2026-04-02 and 2026-04-07\n    \
                    expected 1, by the single call 1, got 4294967295";
        assert_found(turned, WHOLE, 2, told);
        let last_left_out: AskPortfolio = |from, to, counts, answer| {
            let before = counts[2];
            let number = ffi::mf_portfolio(from, to, counts, answer);
            counts[2] = before;
            number
        };
        assert_found(last_left_out, WHOLE, 1, "2 of 3: 20819 and 20819");
    }

    #[test]
    fn a_wrong_answer_is_a_difference() {
        let one_run_less: AskPortfolio = |from, to, counts, answer| {
            let number = ffi::mf_portfolio(from, to, counts, answer);
            answer[4] -= 1;
            number
        };
        assert_found(one_run_less, WHOLE, 1, "expected 0000000002000000");
        let no_number: AskPortfolio = |_, _, _, answer| {
            answer.fill(0);
            10
        };
        assert_found(no_number, [3, 2, 3, 32], 1, "expected 0a00000000000000");
    }

    #[test]
    fn a_wrong_number_is_a_difference() {
        assert_found(|_, _, _, _| 10, WHOLE, 3, "10 returned and not 0");
        assert_found(|_, _, _, _| 10, [3, 2, 3, 31], 1, "10 returned and not 1");
        let told = "mf_portfolio of 4097, 4097 and 4097 entries with 32 bytes: 0 returned";
        assert_found(|_, _, _, _| 0, [4097, 4097, 4097, 32], 1, told);
    }

    #[test]
    fn what_is_written_elsewhere_is_a_difference() {
        let on_a_refusal: AskPortfolio = |from, to, counts, answer| {
            let number = ffi::mf_portfolio(from, to, counts, answer);
            counts[0] ^= u32::from(number != 0);
            number
        };
        for lens in [[3, 2, 3, 32], [3, 3, 3, 33]] {
            assert_found(on_a_refusal, lens, 1, "refused, and the third list was written");
        }
        let asks: [(AskPortfolio, &str); 6] = [
            (|f, t, c, a| (write_at(c, -1), ffi::mf_portfolio(f, t, c, a)).1, "the third list"),
            (|f, t, c, a| (write_at(c, 3), ffi::mf_portfolio(f, t, c, a)).1, "the third list"),
            (|f, t, c, a| (write_at(a, 32), ffi::mf_portfolio(f, t, c, a)).1, "or the answer"),
            (|f, t, c, a| (ffi::mf_portfolio(f, t, c, a), write_at(f, -1)).0, "the two lists"),
            (|f, t, c, a| (ffi::mf_portfolio(f, t, c, a), write_at(t, 3)).0, "the two lists"),
            (|f, t, c, a| (ffi::mf_portfolio(f, t, c, a), write_at(f, 2)).0, "lists were written"),
        ];
        for (ask, told) in asks {
            assert_found(ask, WHOLE, 1, told);
        }
    }

    #[test]
    fn an_unknown_panic_and_another_count_are_differences() {
        let raised = PortfolioRow { count: |_, _| panic!("made up"), ..row(ffi::mf_portfolio) };
        let unmade = PortfolioRow { probe: Box::new(|_| panic!("none")), ..row(ffi::mf_portfolio) };
        let other = PortfolioRow { count: |_, _| 7, ..row(ffi::mf_portfolio) };
        let outcomes = run(&[&raised, &unmade, &other], &Progress::new(30));
        let counts = outcomes.iter().map(|outcome| (outcome.compared, outcome.differences));
        assert_eq!(counts.collect::<Vec<_>>(), [(10, 10), (10, 10), (30, 20)]);
        assert!(outcomes[0].shown[0].text.contains("'made up'"), "{}", outcomes[0].shown[0].text);
        assert!(outcomes[1].shown[0].text.contains("'none'"), "{}", outcomes[1].shown[0].text);
    }

    /// Counts, and then changes what the test says of each pair and its count.
    fn change(
        (from, to): (&[u32], &[u32]),
        counts: &mut [u32],
        answer: &mut [u8],
        wrongly: fn(u32, u32, u32) -> u32,
    ) -> u8 {
        let number = ffi::mf_portfolio(from, to, counts, answer);
        if number == 0 {
            for ((&from, &to), count) in from.iter().zip(to).zip(counts) {
                *count = wrongly(from, to, *count);
            }
        }
        number
    }

    /// Programs that err in one thing, and the row that finds each.
    #[test]
    fn rows_find_what_errs_in_the_small() {
        /// The last day and one of 2483.
        const LAST: u32 = 339_675;
        const A_DAY: u32 = 187_654;
        let asks: [(&str, AskPortfolio); 7] = [
            ("every date", |f, t, c, a| {
                change((f, t), c, a, |from, _, count| count + u32::from(from == A_DAY))
            }),
            ("every date", |f, t, c, a| {
                change((f, t), c, a, |from, to, count| count + u32::from(to == A_DAY && from < to))
            }),
            ("by the edges", |f, t, c, a| {
                change((f, t), c, a, |_, to, count| if to == LAST { u32::MAX } else { count })
            }),
            ("random numbers", |f, t, c, a| {
                change((f, t), c, a, |from, _, count| if from >> 31 == 1 { 0 } else { count })
            }),
            ("every length, all lists alike", |f, t, c, a| match f.len() {
                4096 => 10,
                _ => ffi::mf_portfolio(f, t, c, a),
            }),
            ("other lengths", |f, t, c, a| match a.len() {
                64 => 0,
                _ => ffi::mf_portfolio(f, t, c, a),
            }),
            ("every order of six kinds", |f, t, c, a| {
                let number = ffi::mf_portfolio(f, t, c, a);
                let out = c.first() == Some(&u32::MAX) && c.get(1).is_some_and(|&c| c != u32::MAX);
                a[4] += u8::from(out);
                number
            }),
        ];
        for (what, ask) in asks {
            let mut rows = portfolios::rows(1, 20_000).into_iter();
            let row = rows.find(|row| row.what == what).expect("a row");
            let row = PortfolioRow { ask, ..row };
            assert!(run(&[&row], &Progress::new(row.len))[0].differences > 0, "{what}");
        }
    }
}
