//! Counts for a whole portfolio: each is the single call's, at its place; the runs are those that a
//! plain loop counts; and what is refused leaves the third list as it was.

#[allow(dead_code)] // Of all arguments, dates alone are made up here.
mod zufall;

use mako_fristen_host::{
    ffi, portfolio, portfolio_counts, werktage_between, Answer, Date, Error, Refusal, MOST_PAIRS,
    OUT_OF_RANGE,
};
use std::sync::LazyLock;
use zufall::Random;

/// Entries, or bytes, around what is lent.
const GUARD: usize = 9;
const FILLS: [u8; 3] = [0x00, 0xa5, 0xff];

/// About the first day, about the last, and the ends of the numbers.
const OUTSIDE: [u32; 10] =
    [0, 1, 9_494, 9_495, 339_676, 339_677, (1 << 31) - 1, 1 << 31, u32::MAX - 1, u32::MAX];
const INSIDE: [u32; 4] = [9_496, 9_497, 339_674, 339_675];

/// 2 and 7 April 2026.
const THURSDAY: u32 = 20_545;
const TUESDAY: u32 = 20_550;

/// Every day from 1 January 1970 to 31 December 2899, one after the other.
static DAYS: LazyLock<Vec<Date>> = LazyLock::new(|| {
    let mut days = Vec::new();
    for year in 1970..=2899 {
        let leap = year % 4 == 0 && (year % 100 != 0 || year % 400 == 0);
        let february = if leap { 29 } else { 28 };
        let lengths = [31, february, 31, 30, 31, 30, 31, 31, 30, 31, 30, 31];
        for (month, length) in (1..).zip(lengths) {
            days.extend((1..=length).map(|day| Date::new(year, month, day)));
        }
    }
    days
});

/// The date of a day; none before 1996 and after 2899.
fn date(day: u32) -> Option<Date> {
    let date = DAYS.get(usize::try_from(day).expect("64 bits"))?;
    (date.year >= 1996).then_some(*date)
}

/// By the single call.
fn single(from: u32, to: u32) -> u32 {
    match (date(from), date(to)) {
        (Some(from), Some(to)) => werktage_between(from, to).expect("two dates").werktage,
        _ => OUT_OF_RANGE,
    }
}

/// Neighbouring pairs in range whose first days lie in the same year.
fn runs(from: &[u32], to: &[u32]) -> u32 {
    let (mut runs, mut year) = (0, None);
    for (from, to) in from.iter().zip(to) {
        let begins = match (date(*from), date(*to)) {
            (Some(from), Some(_)) => Some(from.year),
            _ => None,
        };
        if begins.is_some() && begins != year {
            runs += 1;
        }
        year = begins;
    }
    runs
}

/// What a call returned, and what it left in the third list and in the answer.
type Left = (u8, Vec<u32>, Vec<u8>);

/// Lends lists and an answer of these lengths inside filled memory, and sees that nothing was written
/// around them, nor to what is read.
fn watched(from: &[u32], to: &[u32], lens: (usize, usize), fill: u8) -> Left {
    let (entry, (counts_len, answer_len)) = (u32::from_ne_bytes([fill; 4]), lens);
    let framed = |list: &[u32]| [&[!entry; GUARD], list, &[!entry; GUARD]].concat();
    let (read_from, read_to) = (framed(from), framed(to));
    let mut counts = vec![entry; GUARD + counts_len + GUARD];
    let mut answer = vec![fill; GUARD + answer_len + GUARD];
    let number = ffi::mf_portfolio(
        &read_from[GUARD..GUARD + from.len()],
        &read_to[GUARD..GUARD + to.len()],
        &mut counts[GUARD..GUARD + counts_len],
        &mut answer[GUARD..GUARD + answer_len],
    );
    assert!(read_from == framed(from) && read_to == framed(to), "what is read was changed");
    let around = counts[..GUARD].iter().chain(&counts[GUARD + counts_len..]);
    assert!(around.into_iter().all(|&around| around == entry), "wrote beside the counts");
    let around = answer[..GUARD].iter().chain(&answer[GUARD + answer_len..]);
    assert!(around.into_iter().all(|&around| around == fill), "wrote beside the answer");
    let counts = counts[GUARD..GUARD + counts_len].to_vec();
    (number, counts, answer[GUARD..GUARD + answer_len].to_vec())
}

/// The counts by the single calls, the runs by the loop, and all other bytes zero; whatever stood
/// there before, and by the function over the slices too.
fn assert_lists(from: &[u32], to: &[u32]) {
    let counts: Vec<u32> = from.iter().zip(to).map(|(from, to)| single(*from, *to)).collect();
    let runs = runs(from, to);
    let mut answer = vec![0; Answer::LEN];
    answer[4..8].copy_from_slice(&runs.to_le_bytes());
    for fill in FILLS {
        let left = watched(from, to, (from.len(), Answer::LEN), fill);
        assert!(left == (0, counts.clone(), answer.clone()), "{from:?} {to:?}: {left:?}");
    }
    let mut given = vec![7; from.len()];
    assert_eq!(portfolio_counts(from, to, &mut given), Ok(runs));
    assert_eq!(given, counts);
}

/// The pairs' first days, and their second.
fn parted(pairs: &[(u32, u32)]) -> (Vec<u32>, Vec<u32>) {
    pairs.iter().copied().unzip()
}

impl Random {
    fn day(&mut self) -> u32 {
        9_496 + self.below(330_180) as u32
    }

    fn day_or_none(&mut self) -> u32 {
        match self.below(16) {
            0 => OUTSIDE[self.below(10) as usize],
            1 => INSIDE[self.below(4) as usize],
            2 => self.number() as u32,
            _ => self.day(),
        }
    }

    /// A contract of up to 20 years, which begins within 30.
    fn contract(&mut self) -> (u32, u32) {
        let from = THURSDAY + self.below(10_957) as u32;
        (from, from + self.below(7_305) as u32)
    }
}

#[test]
fn every_date_has_its_day_and_every_day_its_date() {
    assert_eq!((DAYS[9_496], DAYS[339_675]), (Date::FIRST, Date::LAST));
    assert_eq!((Date::FIRST_DAY, Date::LAST_DAY, DAYS.len()), (9_496, 339_675, 339_676));
    for (number, date) in (0..).zip(DAYS.iter().copied()) {
        let day = (date.year >= 1996).then_some(number);
        assert_eq!(date.calendar_day(), day, "{date}");
        assert_eq!(Date::of_calendar_day(number), day.map(|_| date), "{number}");
        assert_eq!(date.is_in_calendar(), day.is_some(), "{date}");
    }
    for day in OUTSIDE {
        assert_eq!(Date::of_calendar_day(day), None, "{day}");
    }
    for (year, month, day) in [(2026, 2, 29), (2900, 1, 1), (2026, 0, 1), (65_535, 12, 31)] {
        assert_eq!(Date::new(year, month, day).calendar_day(), None);
    }
}

/// Dates and what is none: the count, or the refusal.
#[test]
fn each_count_is_the_single_calls() {
    let mut random = Random(0x706f_7274);
    let pair = |_| {
        let from = random.date();
        (from, random.date_near(from))
    };
    let pairs: Vec<(Date, Date)> = (0..20_000).map(pair).collect();
    let given = portfolio(&pairs);
    assert_eq!(given.len(), pairs.len());
    let (mut refused, mut counted) = (0, 0);
    for ((from, to), given) in pairs.into_iter().zip(given) {
        let single = werktage_between(from, to).map(|between| between.werktage);
        assert_eq!(given, single, "{from} {to}");
        refused += u32::from(given == Err(Error::Refused(Refusal::NoDate)));
        counted += u32::from(given.is_ok_and(|count| count > 0));
    }
    assert!(refused > 1_000 && counted > 5_000, "{refused} refused, {counted} counted");
}

/// At random, sorted by the first day, and with days out of range among them.
#[test]
fn lists_of_contracts() {
    let mut random = Random(0x6c69_7374);
    for len in [1, 2, 3, 10, 100, 1_000, MOST_PAIRS] {
        let mut contracts: Vec<_> = (0..len).map(|_| random.contract()).collect();
        let (from, to) = parted(&contracts);
        assert_lists(&from, &to);
        assert_lists(&to, &from);
        contracts.sort_unstable();
        let (from, to) = parted(&contracts);
        assert_lists(&from, &to);
        let any: Vec<_> = (0..len).map(|_| (random.day_or_none(), random.day_or_none())).collect();
        let (from, to) = parted(&any);
        assert_lists(&from, &to);
    }
}

/// Few years, so that runs are long, and holes in them.
#[test]
fn runs_and_what_ends_them() {
    let mut random = Random(0x6c61_7566);
    for _ in 0..500 {
        let (first, len) = (random.day().min(338_000), random.below(40));
        let pair = |_| match random.below(6) {
            0 => (random.day_or_none(), random.day_or_none()),
            1 => (first + random.below(1_500) as u32, OUTSIDE[random.below(10) as usize]),
            _ => (first + random.below(800) as u32, random.day()),
        };
        let (from, to) = parted(&(0..len).map(pair).collect::<Vec<_>>());
        assert_lists(&from, &to);
    }
}

/// 2025 has the days from 20,089 to 20,453, 2026 those behind it.
#[test]
fn runs_counted_by_hand() {
    let (last, next) = (20_453, 20_454);
    let later = 30_000;
    let rows: [(&[(u32, u32)], u32); 10] = [
        (&[], 0),
        (&[(last, later)], 1),
        (&[(last, last)], 1),
        (&[(last, 9_496)], 1),
        (&[(last, later), (20_089, later), (last, 9_496)], 1),
        (&[(last, later), (next, later), (next, later), (last, later)], 3),
        (&[(last, 9_495)], 0),
        (&[(last, later), (last, 9_495), (last, later)], 2),
        (&[(9_495, last), (last, later), (339_676, last), (u32::MAX, u32::MAX)], 1),
        (&[(20_088, later), (20_089, later), (last, later), (next, later)], 3),
    ];
    for (pairs, expected) in rows {
        let (from, to) = parted(pairs);
        let mut counts = vec![7; pairs.len()];
        assert_eq!(portfolio_counts(&from, &to, &mut counts), Ok(expected), "{pairs:?}");
        assert_lists(&from, &to);
    }
}

/// From the last day of each year and from the first of the next, to the same of another.
#[test]
fn about_each_1_january() {
    let first = |day: &u32| date(*day).is_some_and(|date| (date.month, date.day) == (1, 1));
    let firsts: Vec<u32> = (0..=339_676).filter(first).collect();
    assert_eq!(firsts.len(), 904);
    let about: Vec<u32> = firsts.iter().flat_map(|day| [day - 1, *day]).collect();
    let later = about.iter().map(|day| day + 3_653).collect::<Vec<_>>();
    assert_lists(&about, &later);
    assert_lists(&vec![9_496; about.len()], &about);
    assert_lists(&about, &vec![339_675; about.len()]);
}

/// A day out of range at either place, beside one in it and beside another.
#[test]
fn a_day_out_of_range_gives_the_largest_number() {
    for outside in OUTSIDE {
        for other in INSIDE.into_iter().chain(OUTSIDE) {
            for (from, to) in [(outside, other), (other, outside)] {
                assert_lists(&[from], &[to]);
                assert_lists(&[THURSDAY, from, THURSDAY], &[TUESDAY, to, TUESDAY]);
                let mut counts = [7; 3];
                let (from, to) = ([THURSDAY, from, THURSDAY], [TUESDAY, to, TUESDAY]);
                assert_eq!(portfolio_counts(&from, &to, &mut counts), Ok(2));
                assert_eq!(counts, [1, OUT_OF_RANGE, 1], "{from:?} {to:?}");
            }
        }
    }
    for (from, to) in INSIDE.into_iter().flat_map(|from| INSIDE.map(|to| (from, to))) {
        assert_lists(&[from], &[to]);
    }
    assert_eq!(OUT_OF_RANGE, 4_294_967_295);
}

#[test]
fn a_second_day_before_at_and_after_the_first() {
    let mut random = Random(0x7477_6f00);
    for day in (0..300).map(|_| 9_896 + random.below(329_000) as u32).chain([9_496 + 366]) {
        let steps = [0, 1, 2, 3, 7, 31, 365, 366];
        let before: Vec<u32> = steps.iter().map(|step| day - step).collect();
        let after: Vec<u32> = steps.iter().map(|step| day + step).collect();
        assert_lists(&[day; 8], &before);
        assert_lists(&[day; 8], &after);
        let mut counts = [7; 8];
        assert_eq!(portfolio_counts(&[day; 8], &before, &mut counts), Ok(1));
        assert_eq!(counts, [0; 8], "{day}");
    }
}

/// 10 for lists that differ or are too long, and nothing else; the third list is then as it was.
#[test]
fn lists_of_every_kind_of_length() {
    let lens = [0, 1, 2, 4_095, 4_096, 4_097, 10_000];
    let mut answer = vec![0; Answer::LEN];
    answer[0] = 10;
    for (from_len, to_len) in lens.into_iter().flat_map(|from| lens.map(|to| (from, to))) {
        let (from, to) = (vec![THURSDAY; from_len], vec![TUESDAY; to_len]);
        for counts_len in lens {
            let fits = from_len == to_len && to_len == counts_len && from_len <= 4_096;
            for fill in FILLS {
                let (number, counts, left) = watched(&from, &to, (counts_len, 32), fill);
                if fits {
                    assert_eq!((number, left[4]), (0, from_len.min(1) as u8));
                    assert!(counts.iter().all(|&count| count == 1), "{from_len}");
                    continue;
                }
                assert_eq!(number, 10, "{from_len} {to_len} {counts_len}");
                assert_eq!(left, answer, "{from_len} {to_len} {counts_len}");
                let untouched = u32::from_ne_bytes([fill; 4]);
                assert!(counts.iter().all(|&count| count == untouched));
            }
            let mut counts = vec![7; counts_len];
            let given = portfolio_counts(&from, &to, &mut counts);
            let refused = Err(Refusal::ListLength.into());
            assert_eq!(given, if fits { Ok(from_len.min(1) as u32) } else { refused });
            assert!(fits || counts.iter().all(|&count| count == 7));
        }
    }
}

/// Before 10: neither the answer nor the third list is touched.
#[test]
fn refusal_1_comes_first() {
    let days = [THURSDAY; 5_000];
    let lens = [(0, 0, 0), (1, 1, 1), (3, 3, 3), (3, 2, 3), (1, 1, 0), (5_000, 5_000, 5_000)];
    for len in (0..=70).filter(|len| *len != Answer::LEN) {
        for ((from, to, counts), fill) in lens.into_iter().flat_map(|l| FILLS.map(|f| (l, f))) {
            let left = watched(&days[..from], &days[..to], (counts, len), fill);
            let entry = u32::from_ne_bytes([fill; 4]);
            assert!(left == (1, vec![entry; counts], vec![fill; len]), "{len} bytes");
        }
    }
}

/// Also where every day is out of range: 10 comes before they are looked at.
#[test]
fn refusal_10_goes_before_the_days() {
    for days in [&[u32::MAX; 2][..], &[0; 4_097]] {
        let refused = Err(Refusal::ListLength.into());
        assert_eq!(portfolio_counts(days, &days[1..], &mut [7; 2]), refused);
        let mut counts = vec![7; days.len()];
        let fits = days.len() <= MOST_PAIRS;
        let given = portfolio_counts(days, days, &mut counts);
        assert_eq!(given, if fits { Ok(0) } else { refused });
        assert!(counts.iter().all(|&count| count == if fits { OUT_OF_RANGE } else { 7 }));
    }
}

/// Each tells its place: a day later, one after the other.
#[test]
fn more_than_a_call_takes_is_counted_in_order() {
    let mut random = Random(0x6d65_6872);
    for len in [1, 4_095, 4_096, 4_097, 8_192, 8_193, 20_000] {
        let mut pairs: Vec<_> = (0..len)
            .map(|place| {
                (DAYS[10_000 + place], DAYS[10_000 + place + random.below(9_000) as usize])
            })
            .collect();
        for place in [0, 1, 4_095, 4_096, 8_191, 8_192] {
            if let Some(pair) = pairs.get_mut(place) {
                pair.0 = Date::new(2026, 2, 29);
            }
        }
        let single = |(from, to): &(Date, Date)| werktage_between(*from, *to).map(|b| b.werktage);
        let single: Vec<_> = pairs.iter().map(single).collect();
        assert_eq!(portfolio(&pairs), single, "{len} pairs");
        assert_eq!(single[0], Err(Refusal::NoDate.into()));
    }
}

#[test]
fn no_pair_has_no_count() {
    assert_eq!(portfolio(&[]), []);
    assert_eq!(portfolio_counts(&[], &[], &mut []), Ok(0));
    assert_lists(&[], &[]);
}
