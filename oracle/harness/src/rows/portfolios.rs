//! Portfolios: pairs of every date, lists in every order and of every length, days out of range.

use super::{any, far, kalender, years};
use crate::days::{self, DAYS};
use crate::original::{count_both_ways, count_by_list, count_soon, Count, MOST_PAIRS};
use crate::portfolio::{AskPortfolio, Lens, Portfolio};
use crate::random::Random;
use mako_fristen_host::{ffi, Answer};

/// The first and the second day of a pair, as numbers since 1970.
type Pair = (u32, u32);

/// A portfolio, and what stands around its slices.
pub struct PortfolioProbe {
    pub lent: Portfolio,
    pub guard: u32,
}

/// A row of portfolios.
pub struct PortfolioRow {
    pub what: &'static str,
    pub len: u64,
    pub probe: Box<dyn Fn(u64) -> PortfolioProbe + Sync>,
    pub ask: AskPortfolio,
    pub count: Count,
    /// Whether each pair is put to our single call as well.
    pub singles: bool,
}

/// A year has about so many days.
const YEAR: u32 = 365;
const TEN_YEARS: u32 = 3652;

impl PortfolioRow {
    fn new(
        what: &'static str,
        len: u64,
        seed: u64,
        lent: impl Fn(u64, &mut Random) -> Portfolio + Sync + 'static,
    ) -> PortfolioRow {
        const ROW: u64 = 5 << 32;
        let row = what.bytes().fold(ROW, |sum, byte| sum.wrapping_mul(31) + u64::from(byte));
        let probe = move |place| {
            let random = &mut Random::at(seed, row, place);
            PortfolioProbe { lent: lent(place, random), guard: random.number() as u32 }
        };
        let (ask, count) = (ffi::mf_portfolio, count_soon);
        PortfolioRow { what, len, probe: Box::new(probe), ask, count, singles: true }
    }

    fn listed(what: &'static str, seed: u64, lists: Vec<Vec<Pair>>) -> PortfolioRow {
        PortfolioRow::new(what, lists.len() as u64, seed, move |place, random| {
            Portfolio::new(&lists[place as usize], random)
        })
    }

    fn random(
        what: &'static str,
        len: u64,
        seed: u64,
        pairs: fn(&mut Random) -> Vec<Pair>,
    ) -> PortfolioRow {
        PortfolioRow::new(what, len, seed, move |_, random| {
            let pairs = pairs(random);
            Portfolio::new(&pairs, random)
        })
    }

    /// Of these lengths, with the same pairs over and over, which are put to the call alone.
    fn of_lens(what: &'static str, seed: u64, lens: Vec<Lens>) -> PortfolioRow {
        let random = &mut Random::at(seed, lens.len() as u64, 0);
        let pairs: Vec<Pair> = (0..=MOST_PAIRS).map(|_| any_pair(random)).collect();
        let row = PortfolioRow::new(what, lens.len() as u64, seed, move |place, random| {
            let at = random.below(pairs.len() as u32) as usize;
            let pairs = [&pairs[at..], &pairs[..at]].concat();
            Portfolio::with_lens(&pairs, lens[place as usize], random)
        });
        PortfolioRow { count: count_by_list, singles: false, ..row }
    }
}

pub fn rows(seed: u64, random: u64) -> Vec<PortfolioRow> {
    /// Where the original walks far, which takes it up to 40 ms for each pair.
    const FAR: u64 = 24;
    let lists = random / 2000;
    vec![
        every_date(seed),
        PortfolioRow::random("random, in any order", lists, seed, unsorted),
        PortfolioRow::random("random, sorted by beginning", lists, seed, sorted),
        PortfolioRow::random("random, of one year", lists, seed, of_one_year),
        PortfolioRow::random("random, of alternating years", lists, seed, alternating),
        PortfolioRow::random("random, with days out of range", lists, seed, strewn),
        PortfolioRow::random("random numbers", lists, seed, any_numbers),
        PortfolioRow {
            count: count_both_ways,
            ..PortfolioRow::random("random, any two days", far(FAR, random), seed, any_two_days)
        },
        every_order(seed),
        PortfolioRow::listed("by the edges", seed, by_the_edges()),
        every_length(seed),
        other_lengths(seed),
    ]
}

/// Every date as the first day and as the second, with a day soon after it, by an end of its year, of
/// ten years on, and before it. The dates follow one another, so that a run is a whole year.
fn every_date(seed: u64) -> PortfolioRow {
    const KINDS: u64 = 8;
    const PAIRS: u64 = KINDS * DAYS as u64;
    const EACH: u64 = MOST_PAIRS as u64;
    let pair = |place: u64, random: &mut Random| {
        let (kind, index) = (place / u64::from(DAYS), (place % u64::from(DAYS)) as u32);
        let other = match kind % 4 {
            0 => index + random.below(40),
            1 => by_an_end(index, random),
            2 => index + random.below(TEN_YEARS + YEAR),
            _ => before(index, random),
        };
        let (one, other) = (days::number(index), days::number(other));
        if kind < KINDS / 2 {
            (one, other)
        } else {
            (other, one)
        }
    };
    PortfolioRow::new("every date", PAIRS.div_ceil(EACH), seed, move |place, random| {
        let places = place * EACH..PAIRS.min((place + 1) * EACH);
        let pairs: Vec<Pair> = places.map(|place| pair(place, random)).collect();
        Portfolio::new(&pairs, random)
    })
}

/// The first or the last day of the year of an index, or the day beside it in the other year.
fn by_an_end(index: u32, random: &mut Random) -> u32 {
    let (first, last) = years::ends(index);
    random.one_of(&[first, first.saturating_sub(1), last, last + 1])
}

/// A day before that of an index, or the day itself where there is none: soon, or any.
fn before(index: u32, random: &mut Random) -> u32 {
    let days = random.one_of(&[1, 2, 40, TEN_YEARS, index + 1]);
    index.saturating_sub(1 + random.below(days))
}

/// How many pairs: any number, one list in 32 as many as it may have, and most few.
fn any_len(random: &mut Random) -> u32 {
    const MOST: u32 = MOST_PAIRS as u32;
    let below = match random.below(32) {
        0 => return MOST,
        1 => MOST + 1,
        2..8 => 257,
        _ => 17,
    };
    random.below(below)
}

/// The index of a second day: before the first, the same, soon after, some years on, or any.
fn second(first: u32, random: &mut Random) -> u32 {
    match random.below(8) {
        0 => before(first, random),
        1 => first,
        2 => any::around(first, 3, random),
        3 => by_an_end(first, random),
        4 => first + random.below(2 * YEAR),
        5 => first + YEAR * (1 + random.below(20)) + random.below(7),
        _ => years::other_day(first, random),
    }
}

fn from_first(first: u32, random: &mut Random) -> Pair {
    (days::number(first), days::number(second(first, random)))
}

fn any_pair(random: &mut Random) -> Pair {
    let first = years::any_day(random);
    from_first(first, random)
}

fn unsorted(random: &mut Random) -> Vec<Pair> {
    (0..any_len(random)).map(|_| any_pair(random)).collect()
}

/// Half of the lists within ten years, so that there are long runs.
fn sorted(random: &mut Random) -> Vec<Pair> {
    let middle = years::any_day(random);
    let by = random.one_of(&[YEAR, TEN_YEARS / 2, DAYS, DAYS]);
    let mut firsts: Vec<u32> =
        (0..any_len(random)).map(|_| any::around(middle, by, random)).collect();
    firsts.sort_unstable();
    firsts.into_iter().map(|first| from_first(first, random)).collect()
}

/// A day of the year of an index; one in four by an end of it.
fn of_year(index: u32, random: &mut Random) -> u32 {
    let (first, last) = years::ends(index);
    match random.below(8) {
        0 => first,
        1 => last,
        _ => first + random.below(last - first + 1),
    }
}

fn of_one_year(random: &mut Random) -> Vec<Pair> {
    let year = years::any_day(random);
    let first = |random: &mut Random| of_year(year, random);
    (0..any_len(random)).map(|_| from_first(first(random), random)).collect()
}

/// Of two years, which may be neighbours, in turn; in half of the lists at times twice the same.
fn alternating(random: &mut Random) -> Vec<Pair> {
    let (len, year) = (any_len(random), years::any_day(random));
    let other = match random.below(2) {
        0 => by_an_end(year, random).min(DAYS - 1),
        _ => years::any_day(random),
    };
    let twice = random.one_of(&[u32::MAX, 4]);
    let mut turn = [year, other];
    let mut pair = |_| {
        if random.below(twice) != 0 {
            turn.reverse();
        }
        from_first(of_year(turn[0], random), random)
    };
    (0..len).map(&mut pair).collect()
}

/// Lists as above with pairs out of range: one at a time or several in a row, inside of a run and, in
/// every second place, where one begins or ends.
fn strewn(random: &mut Random) -> Vec<Pair> {
    let list = random.one_of(&[unsorted, sorted, of_one_year, alternating]);
    let mut pairs = list(random);
    let year = |pair: Pair| days::numbered(pair.0).map(|day| day.year());
    let one_in = random.one_of(&[2, 8, 64]);
    let mut left = 0;
    for place in 0..pairs.len() {
        let begins = place > 0 && year(pairs[place - 1]) != year(pairs[place]);
        let ends = pairs.get(place + 1).is_some_and(|&next| year(next) != year(pairs[place]));
        let here = random.below(one_in) == 0 || (begins || ends) && random.below(2) == 0;
        if left == 0 && here {
            left = random.one_of(&[1, 1, 2, 5]);
        }
        if left > 0 {
            left -= 1;
            pairs[place] = out_of_range(pairs[place], random);
        }
    }
    pairs
}

/// A list of one of the kinds of the random rows.
pub(crate) fn any_pairs(random: &mut Random) -> Vec<Pair> {
    let lists = [unsorted, sorted, of_one_year, alternating, strewn, strewn, any_numbers];
    random.one_of(&lists)(random)
}

/// With the first day out of range, or the second, or both.
fn out_of_range((from, to): Pair, random: &mut Random) -> Pair {
    match random.below(3) {
        0 => (outside(from, random), to),
        1 => (from, outside(to, random)),
        _ => (outside(from, random), outside(to, random)),
    }
}

/// A number out of range: by an edge of the calendar or of the numbers, any before or after, or the
/// day with one of the bits that none has.
fn outside(day: u32, random: &mut Random) -> u32 {
    let (first, last) = (days::number(0), days::number(DAYS - 1));
    let by = random.below(3);
    match random.below(8) {
        0 => by,
        1 => first - 1 - by,
        2 => last + 1 + by,
        3 => (1 << 31) - 1 + by,
        4 => u32::MAX - by,
        5 => random.below(first),
        6 => last + 1 + random.below(u32::MAX - last),
        _ => day | 1 << (19 + random.below(13)),
    }
}

/// Any numbers; in half of the lists so small that most are days of the calendar.
fn any_numbers(random: &mut Random) -> Vec<Pair> {
    let bits = random.one_of(&[0, 13]);
    let number = |random: &mut Random| random.number() as u32 >> bits;
    (0..any_len(random)).map(|_| (number(random), number(random))).collect()
}

fn any_two_days(random: &mut Random) -> Vec<Pair> {
    let day = |random: &mut Random| days::number(kalender::any_index(random));
    (0..random.below(17)).map(|_| (day(random), day(random))).collect()
}

/// All lists of one to six pairs of the six kinds.
fn every_order(seed: u64) -> PortfolioRow {
    const LONGEST: u32 = 6;
    let lists: u64 = (1..=LONGEST).map(|len| KINDS.pow(len)).sum();
    PortfolioRow::new("every order of six kinds", lists, seed, |place, random| {
        let mut rest = place;
        let mut len = 1;
        while rest >= KINDS.pow(len) {
            rest -= KINDS.pow(len);
            len += 1;
        }
        let year = random.below(DAYS - 2 * YEAR);
        let kinds = (0..len).map(|at| rest / KINDS.pow(at) % KINDS);
        let pairs: Vec<Pair> = kinds.map(|kind| of_kind(kind, year, random)).collect();
        Portfolio::new(&pairs, random)
    })
}

const KINDS: u64 = 6;

/// Of the year of an index with a later second day, and with one that is not; of the next year; with
/// the first day out of range, with the second, with both.
fn of_kind(kind: u64, year: u32, random: &mut Random) -> Pair {
    let first = of_year(year, random);
    let day = days::number(first);
    match kind {
        0 => (day, days::number(first + 1 + random.below(2 * YEAR))),
        1 => (day, days::number(first.saturating_sub(random.below(3)))),
        2 => (days::number(of_year(years::ends(year).1 + 1, random)), day),
        3 => (outside(day, random), day),
        4 => (day, outside(day, random)),
        _ => (outside(day, random), outside(day, random)),
    }
}

/// Numbers by the edges of the calendar, of its first and last year and of the numbers, each with each
/// as a pair: all in one list, each alone, and each between two pairs of the first and of the last
/// year. And of the edges themselves all pairs as neighbours.
fn by_the_edges() -> Vec<Vec<Pair>> {
    let crossed = |numbers: &[u32]| -> Vec<Pair> {
        let with_each = |&one: &u32| numbers.iter().map(move |&other| (one, other));
        numbers.iter().flat_map(with_each).collect()
    };
    let (first, last) = (days::number(0), days::number(DAYS - 1));
    let ends = [first, last + 1, first + 366, last - 364, 1 << 16, 1 << 24, 1 << 31];
    let around = ends.into_iter().flat_map(|end| end - 2..end + 3);
    let around: Vec<u32> = (0..3).chain(around).chain(u32::MAX - 2..=u32::MAX).collect();
    let pairs = crossed(&around);
    let between = |year: Pair| pairs.iter().map(move |&pair| vec![year, pair, year]);
    let mut lists: Vec<Vec<Pair>> = pairs.iter().map(|&pair| vec![pair]).collect();
    lists.extend(pairs.chunks(MOST_PAIRS).map(<[Pair]>::to_vec));
    lists.extend(between((first + 100, first + 200)).chain(between((last - 100, last))));
    let edges = crossed(&[0, first - 1, first, last, last + 1, 1 << 31, u32::MAX]);
    lists.extend(edges.iter().flat_map(|&one| edges.iter().map(move |&other| vec![one, other])));
    lists
}

/// All three lists of every length up to one over the longest.
fn every_length(seed: u64) -> PortfolioRow {
    let lens = (0..=MOST_PAIRS + 1).map(|len| [len, len, len, Answer::LEN]);
    PortfolioRow::of_lens("every length, all lists alike", seed, lens.collect())
}

/// Lists of 0 to 5 entries, each with each, and long ones of which one or two differ, by 1, by many or
/// up to the longest; each with an answer of 32 bytes and of others. Lists that are too long alike,
/// and answers of 0 to 70 bytes with lists that are refused and that are not.
fn other_lengths(seed: u64) -> PortfolioRow {
    const SMALL: usize = 6;
    const ANSWERS: [usize; 4] = [Answer::LEN, 0, Answer::LEN - 1, Answer::LEN + 1];
    let small = (0..SMALL.pow(3)).map(|at| [at % SMALL, at / SMALL % SMALL, at / SMALL.pow(2)]);
    let long = [1, 2, 100, MOST_PAIRS - 1, MOST_PAIRS, MOST_PAIRS + 1, 2 * MOST_PAIRS];
    let differing = long.into_iter().flat_map(|len| {
        let less = [0, len / 2, len - 1];
        let more = [len + 1, len + 100, len + MOST_PAIRS, MOST_PAIRS, MOST_PAIRS + 1];
        less.into_iter().chain(more).flat_map(move |other| {
            [[other, len, len], [len, other, len], [len, len, other], [len, other, other + 1]]
        })
    });
    let too_long = [2, 3, 16].map(|times| [times * MOST_PAIRS; 3]);
    let lists = small.chain(differing).chain(too_long).chain([[1 << 16; 3], [(1 << 16) + 1; 3]]);
    let answered = |[from, to, counts]: [usize; 3], answer| [from, to, counts, answer];
    let lens = lists.flat_map(|lists| ANSWERS.map(|answer| answered(lists, answer)));
    let of_answers = [[3; 3], [0; 3], [3, 3, 2], [MOST_PAIRS + 1; 3]];
    let of_answers = of_answers.into_iter().flat_map(|lists| {
        let answers = (0..=super::LONGEST).chain([MOST_PAIRS]);
        answers.map(move |answer| answered(lists, answer))
    });
    PortfolioRow::of_lens("other lengths", seed, lens.chain(of_answers).collect())
}

#[cfg(test)]
mod tests {
    use super::{rows, PortfolioRow};
    use crate::days::{self, DAYS};
    use crate::original::{count_by_list, expected_of_portfolio};
    use crate::portfolio::{Lens, Portfolio};
    use std::collections::HashSet;

    fn row(what: &str) -> PortfolioRow {
        let found = rows(1, 2_000_000).into_iter().find(|row| row.what == what);
        found.expect("a row")
    }

    fn lent(row: &PortfolioRow) -> impl Iterator<Item = Portfolio> + '_ {
        (0..row.len).map(|place| (row.probe)(place).lent)
    }

    /// The runs of an answered portfolio.
    fn runs(lent: &Portfolio) -> u32 {
        let left = expected_of_portfolio(lent, count_by_list).expect("no panic");
        u32::from_le_bytes(left.answer[4..8].try_into().expect("four bytes"))
    }

    #[test]
    fn no_row_is_empty_and_places_do_not_depend_on_how_many_there_are() {
        for (few, many) in rows(7, 1_000_000).iter().zip(&rows(7, 30_000_000)) {
            assert!(few.len > 0, "{}", few.what);
            let place = few.len.min(many.len) / 2;
            let [few, many] = [few, many].map(|row| (row.probe)(place));
            assert_eq!((few.lent, few.guard), (many.lent, many.guard));
        }
    }

    #[test]
    fn every_date_is_a_first_and_a_second_day() {
        let row = row("every date");
        let mut met = vec![[0_u8; 2]; DAYS as usize];
        for lent in lent(&row) {
            for (from, to) in lent.pairs() {
                let [from, to] = [from, to].map(|day| (day - days::number(0)) as usize);
                met[from][0] = met[from][0].saturating_add(1);
                met[to][1] = met[to][1].saturating_add(1);
            }
        }
        assert!(met.iter().flatten().all(|&times| times >= 4));
    }

    #[test]
    fn lists_are_of_their_kinds() {
        assert!(lent(&row("random, of one year")).all(|lent| runs(&lent) <= 1));
        assert!(lent(&row("random, sorted by beginning")).all(|lent| lent.from.is_sorted()));
        let alternating = row("random, of alternating years");
        let each_is_a_run = |lent: &Portfolio| runs(lent) as usize == lent.from.len();
        let lists = lent(&alternating).filter(|lent| lent.from.len() > 2 && each_is_a_run(lent));
        assert!(lists.count() as u64 > alternating.len / 8);
    }

    /// By either day and by both; behind a pair in range or not, and before one; inside of a run, and
    /// at its end.
    #[test]
    fn pairs_out_of_range_stand_everywhere() {
        let year = |day| days::numbered(day).map(|day| day.year());
        let (mut days_out, mut beside) = (HashSet::new(), HashSet::new());
        for lent in lent(&row("random, with days out of range")) {
            days_out
                .extend(lent.pairs().map(|(from, to)| [from, to].map(|day| year(day).is_none())));
            let of_pair = |(from, to)| year(to).and(year(from));
            let years: Vec<Option<i32>> = lent.pairs().map(of_pair).collect();
            for three in years.windows(3).filter(|three| three[1].is_none()) {
                let (before, after) = (three[0], three[2]);
                beside.insert((before.is_some(), after.is_some(), before == after));
            }
        }
        assert_eq!(days_out.len(), 4);
        assert_eq!(beside.len(), 5, "{beside:?}");
    }

    #[test]
    fn lists_of_every_length_are_met() {
        let alike = row("every length, all lists alike");
        assert_eq!(alike.len, 4098);
        for (len, lent) in lent(&alike).enumerate() {
            assert_eq!(lent.lens(), [len, len, len, 32]);
        }
        let lens: HashSet<Lens> = lent(&row("other lengths")).map(|lent| lent.lens()).collect();
        for len in [1, 2, 100, 4095, 4096, 4097, 8192] {
            for other in [0, len - 1, len + 1, len + 100, len + 4096] {
                let each = [[other, len, len], [len, other, len], [len, len, other]];
                for [from, to, counts] in each {
                    let answers = [32, 31, 33, 0].map(|answer| [from, to, counts, answer]);
                    assert!(answers.iter().all(|each| lens.contains(each)), "{len}, {other}");
                }
            }
        }
        assert!((0..71).all(|answer| lens.contains(&[3, 3, 3, answer])));
        assert!((0..71).all(|answer| lens.contains(&[3, 3, 2, answer])));
        let any: HashSet<usize> =
            lent(&row("random, in any order")).map(|p| p.from.len()).collect();
        assert!((0..17).chain([4096]).all(|len| any.contains(&len)));
        assert!(any.iter().any(|len| (2000..4096).contains(len)));
    }
}
