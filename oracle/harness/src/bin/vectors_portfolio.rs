//! Writes stored portfolios with the original's counts, for the program `vektoren_portfolio`, which
//! replays them without Rust. The same seed gives the same portfolios. Options: `--seed N`,
//! `--out FOLDER` (that of the crates).

use harness::days::{self, DAYS};
use harness::original::{self, Left, MOST_PAIRS};
use harness::portfolio::{Lens, Portfolio};
use harness::random::Random;
use harness::stored::{self, write, UNWRITTEN};
use mako_fristen::HolidayCalendar::BdewMaKo;
use mako_fristen_host::Answer;
use std::path::Path;
use std::process::ExitCode;

/// An entry of unwritten bytes.
const UNWRITTEN_ENTRY: u32 = u32::from_le_bytes([UNWRITTEN; 4]);
/// The calendar's first day and its last, in days from 1 January 1970 on.
const FIRST_DAY: u32 = 9_496;
const LAST_DAY: u32 = 339_675;
/// Days by both edges of the calendar, of a signed number and of an unsigned one.
const EDGES: [u32; 13] = [
    0,
    1,
    FIRST_DAY - 1,
    FIRST_DAY,
    FIRST_DAY + 1,
    LAST_DAY - 1,
    LAST_DAY,
    LAST_DAY + 1,
    (1 << 31) - 1,
    1 << 31,
    (1 << 31) + 1,
    u32::MAX - 1,
    u32::MAX,
];
/// A year and 20 years, in days.
const CONTRACT: (u32, u32) = (365, 7_305);

fn main() -> ExitCode {
    stored::run(6 << 32, written)
}

fn written(folder: &Path, random: &mut Random) -> Result<String, String> {
    let portfolios = portfolios(random);
    let stored: Result<Vec<Vec<u8>>, String> = portfolios.iter().map(expected).collect();
    let (bytes, number) = (stored?.concat(), portfolios.len());
    write(folder, "vektoren_portfolio/stdin", &bytes)?;
    let equal = format!("{number} portfolios, {number} equal\n");
    write(folder, "vektoren_portfolio/stdout", equal.as_bytes())?;
    Ok(format!("{number} portfolios of {} bytes", bytes.len()))
}

/// A portfolio with what is expected of it: 4 bytes each, how many entries the lists have and how
/// many bytes the answer; two lists; the number; the third list; the answer.
fn expected(portfolio: &Portfolio) -> Result<Vec<u8>, String> {
    let left = original::expected_of_portfolio(portfolio, walked);
    let Left { number, counts, answer } = left.map_err(|panic| panic.to_string())?;
    let lens = portfolio.lens().map(|len| len as u32);
    let [from, to] = [&portfolio.from, &portfolio.to].map(|list| bytes_of(list));
    Ok([bytes_of(&lens), from, to, vec![number], bytes_of(&counts), answer].concat())
}

fn bytes_of(list: &[u32]) -> Vec<u8> {
    list.iter().flat_map(|entry| entry.to_le_bytes()).collect()
}

/// The original's count, which walks however far it is.
fn walked(from: time::Date, to: time::Date) -> u32 {
    mako_fristen::werktage_between(from, to, BdewMaKo)
}

type Pair = (u32, u32);

/// The front of the pairs, with lists and an answer of these lengths.
fn lent(pairs: &[Pair], [from, to, counts, answer]: Lens) -> Portfolio {
    Portfolio {
        from: pairs[..from].iter().map(|&(from, _)| from).collect(),
        to: pairs[..to].iter().map(|&(_, to)| to).collect(),
        counts: vec![UNWRITTEN_ENTRY; counts],
        answer: vec![UNWRITTEN; answer],
    }
}

fn portfolios(random: &mut Random) -> Vec<Portfolio> {
    let mut lists = vec![Vec::new()];
    lists.extend(short());
    lists.extend([16, 100].map(|pairs| times(pairs, random, any)));
    lists.extend([16, 100].map(|pairs| sorted(times(pairs, random, contract))));
    lists.push(EDGES.iter().flat_map(|&from| EDGES.map(|to| (from, to))).collect());
    lists.extend([of_one_year(random), of_two_years(random), cut(random), ends_of_years(random)]);
    lists.push(times(MOST_PAIRS, random, contract));
    lists.push(sorted(times(MOST_PAIRS, random, contract)));
    lists.push(times(MOST_PAIRS, random, any));
    let answered = |pairs: Vec<Pair>| {
        let len = pairs.len();
        lent(&pairs, [len, len, len, Answer::LEN])
    };
    lists.into_iter().map(answered).chain(refused(random)).collect()
}

/// One to three pairs: the second day later, the same and earlier; one of a pair's days, or both, out
/// of range; before, between and behind pairs that begin in one year, and in two.
fn short() -> Vec<Vec<Pair>> {
    // 2 April and 31 December 2026, 1 January 2027, 2 April 2036.
    let (from, same_year, next_year, to) = (20_545, 20_818, 20_819, 24_198);
    let [one, same, other] = [from, same_year, next_year].map(|from| (from, to));
    let out = [(FIRST_DAY - 1, to), (from, LAST_DAY + 1), (u32::MAX, u32::MAX)];
    let mut lists = vec![vec![one], vec![(from, from)], vec![(to, from)]];
    lists.extend(out.map(|out| vec![out]));
    lists.extend([vec![one, one], vec![one, same], vec![same, other], vec![(to, from), (to, to)]]);
    lists.extend([vec![one, out[0]], vec![out[1], one], vec![out[2], out[0]]]);
    lists.extend([vec![one, same, other], vec![other, one, one], vec![one, other, one]]);
    lists.extend(out.map(|out| vec![one, out, one]));
    lists
}

fn times(pairs: usize, random: &mut Random, pair: fn(&mut Random) -> Pair) -> Vec<Pair> {
    (0..pairs).map(|_| pair(random)).collect()
}

fn sorted(mut pairs: Vec<Pair>) -> Vec<Pair> {
    pairs.sort_unstable();
    pairs
}

/// Beginning anywhere in the calendar, and of 1 to 20 years.
fn contract(random: &mut Random) -> Pair {
    let (least, most) = CONTRACT;
    let from = FIRST_DAY + random.below(DAYS - most);
    (from, from + least + random.below(most - least + 1))
}

/// A pair of any kind: a contract, days close to each other in any order, days anywhere, one or both
/// out of range or by an edge.
fn any(random: &mut Random) -> Pair {
    let (from, to) = contract(random);
    match random.below(16) {
        0 => (to, from),
        1 => (from, from),
        2 => (from, from - random.below(4).min(from - FIRST_DAY)),
        3 => (from, from + random.below(40)),
        4 => (from, FIRST_DAY + random.below(DAYS)),
        5 => (random.one_of(&EDGES), to),
        6 => (from, random.one_of(&EDGES)),
        7 => (random.number() as u32, random.number() as u32),
        _ => (from, to),
    }
}

/// Pairs that begin on days of the year.
fn in_year(year: i32, pairs: usize, random: &mut Random) -> Vec<Pair> {
    let first = time::Date::from_ordinal_date(year, 1).expect("a first of January");
    let first = FIRST_DAY + days::index(first);
    let pair = |_| {
        let from = first + random.below(365);
        (from, from + random.below(CONTRACT.1))
    };
    (0..pairs).map(pair).collect()
}

/// 300 pairs, one run.
fn of_one_year(random: &mut Random) -> Vec<Pair> {
    in_year(2026, 300, random)
}

/// 200 pairs that begin in either of two years by turns, each a run.
fn of_two_years(random: &mut Random) -> Vec<Pair> {
    let years = [2027, 2028].map(|year| in_year(year, 100, random));
    years[0].iter().zip(&years[1]).flat_map(|(&one, &other)| [one, other]).collect()
}

/// 300 pairs of one year, of which some have a day out of range, so that there are runs of many
/// lengths.
fn cut(random: &mut Random) -> Vec<Pair> {
    let mut pairs = of_one_year(random);
    for (from, to) in &mut pairs {
        match random.below(12) {
            0 => *from = random.one_of(&[0, FIRST_DAY - 1, LAST_DAY + 1, 1 << 31, u32::MAX]),
            1 => *to = random.one_of(&[0, FIRST_DAY - 1, LAST_DAY + 1, 1 << 31, u32::MAX]),
            _ => {}
        }
    }
    pairs
}

/// From the first day and from the last of every year, in order, to a day near by.
fn ends_of_years(random: &mut Random) -> Vec<Pair> {
    let ends = (1996..=2899).flat_map(|year| [(year, 1), (year, time::util::days_in_year(year))]);
    let pair = |(year, day)| {
        let day = time::Date::from_ordinal_date(year, day).expect("a day of the year");
        let from = FIRST_DAY + days::index(day);
        (from, (from + random.below(800)).min(LAST_DAY))
    };
    ends.map(pair).collect()
}

/// Lengths that are refused: by 10, by 1, and by 1 where 10 would come next.
fn refused(random: &mut Random) -> Vec<Portfolio> {
    const TOO_MANY: usize = MOST_PAIRS + 1;
    let pairs = times(TOO_MANY, random, any);
    let lens = [
        [1, 0, 0, 32],
        [0, 1, 0, 32],
        [0, 0, 1, 32],
        [1, 1, 0, 32],
        [1, 0, 1, 32],
        [0, 1, 1, 32],
        [1, 2, 3, 32],
        [16, 16, 17, 32],
        [16, 17, 16, 32],
        [17, 16, 16, 32],
        [100, 100, 99, 32],
        [TOO_MANY, TOO_MANY, TOO_MANY, 32],
        [0, 0, 0, 0],
        [0, 0, 0, 31],
        [1, 1, 1, 0],
        [1, 1, 1, 31],
        [1, 1, 1, 33],
        [3, 3, 3, 64],
        [100, 100, 100, 31],
        [1, 0, 0, 31],
        [0, 1, 0, 33],
        [2, 2, 1, 0],
        [17, 16, 16, 31],
    ];
    lens.map(|lens| lent(&pairs, lens)).into()
}
