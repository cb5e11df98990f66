//! The calendar steps and counts.

use super::{both_ways, far, Row};
use crate::days::{self, DAYS};
use crate::original;
use crate::random::Random;
use mako_fristen::HolidayCalendar::BdewMaKo;
use mako_fristen_host::{Call, Parameter, Question};
use std::sync::LazyLock;
use time::Weekday::{Saturday, Sunday};

pub fn rows(seed: u64, random: u64) -> Vec<Row> {
    let mut rows = every_date();
    rows.extend(random_steps(seed, random));
    rows
}

fn every_date() -> Vec<Row> {
    let counted = |call, what, counts: u64| {
        Row::new(call, what, u64::from(DAYS) * counts, move |place| {
            let date = days::date((place / counts) as u32);
            Question::on(call, date).with_count((place % counts) as u32)
        })
    };
    vec![
        counted(Call::IsWerktag, "every date", 1),
        counted(Call::NextWerktag, "every date", 1),
        counted(Call::AddWerktage, "every date, 0 to 5", 6),
        counted(Call::SubWerktage, "every date, 0 to 5", 6),
        counted(Call::AddMonths, "every date, 0 to 40", 41),
        counted(Call::SubtractMonths, "every date, 0 to 40", 41),
    ]
}

/// Where the original walks far, which takes it up to 40 ms, there are few questions.
fn random_steps(seed: u64, random: u64) -> Vec<Row> {
    const FAR: u64 = 160;
    const UNCAPPED: u64 = 6;
    let far = far(FAR, random);
    let mut rows = Vec::new();
    for call in [Call::AddWerktage, Call::SubWerktage] {
        let row = |what, len, question| Row::random(call, what, len, seed, question);
        rows.push(row("random, small counts", random / 4, small_count));
        rows.push(row("random near the edge, any count", random / 20, any_count_near_the_edge));
        rows.push(both_ways(row("random, any count", far, any_count)));
        rows.push(Row {
            expected: original::expected_uncapped,
            ..row("random, any count, uncapped", UNCAPPED, any_count)
        });
    }
    for call in [Call::AddMonths, Call::SubtractMonths] {
        rows.push(Row::random(call, "random, any count", random / 10, seed, any_months));
    }
    for call in [Call::IsWerktag, Call::NextWerktag, Call::AddWerktage, Call::SubWerktage] {
        rows.push(Row::random(call, "random, by a holiday", random / 40, seed, by_a_holiday));
    }
    let between = Call::WerktageBetween;
    rows.push(Row::random(between, "random, within a year", random / 5, seed, pair_within_a_year));
    rows.push(both_ways(Row::random(between, "random, any two dates", far, seed, any_pair)));
    rows
}

/// An index; half of them lie in the first or the last 400 days.
pub(super) fn any_index(random: &mut Random) -> u32 {
    const EDGE: u32 = 400;
    match random.below(4) {
        0 => random.below(EDGE),
        1 => DAYS - 1 - random.below(EDGE),
        _ => random.below(DAYS),
    }
}

/// A count up to the largest; half of them lie close to where an answer changes.
pub(super) fn large_count(random: &mut Random) -> u32 {
    let near = random.one_of(&[u32::MAX, 1 << 31, 1 << 16, 222_031, DAYS, 10_848, 300]);
    match random.below(2) {
        0 => near.saturating_add(random.below(5)).saturating_sub(2),
        _ => random.number() as u32,
    }
}

fn small_count(call: Call, random: &mut Random) -> Question {
    let below = random.one_of(&[4, 30, 90, 300]);
    Question::on(call, days::date(any_index(random))).with_count(random.below(below))
}

/// The holidays on weekdays.
pub(super) static HOLIDAYS: LazyLock<Vec<u32>> = LazyLock::new(|| {
    let closed_weekday = |&index: &u32| {
        let day = days::day(index);
        !matches!(day.weekday(), Saturday | Sunday) && !mako_fristen::is_werktag(day, BdewMaKo)
    };
    (0..DAYS).filter(closed_weekday).collect()
});

/// A holiday, the day before or the day after, and up to three steps.
fn by_a_holiday(call: Call, random: &mut Random) -> Question {
    let index = (random.one_of(&HOLIDAYS) + random.below(3)).saturating_sub(1);
    let question = Question::on(call, days::date(index));
    if call.takes(Parameter::Count) {
        question.with_count(random.below(4))
    } else {
        question
    }
}

fn any_count(call: Call, random: &mut Random) -> Question {
    Question::on(call, days::date(any_index(random))).with_count(large_count(random))
}

/// On the side where the call leaves the calendar.
fn any_count_near_the_edge(call: Call, random: &mut Random) -> Question {
    let left = random.below(300);
    let index = if call == Call::AddWerktage { DAYS - 1 - left } else { left };
    let n = if random.below(2) == 0 { random.below(300) } else { large_count(random) };
    Question::on(call, days::date(index)).with_count(n)
}

/// Half of the counts lie within the calendar's 10,848 months.
pub(super) fn any_months(call: Call, random: &mut Random) -> Question {
    let n = if random.below(2) == 0 { random.below(10_850) } else { large_count(random) };
    Question::on(call, days::date(any_index(random))).with_count(n)
}

/// One pair in some twelve has its second date not after its first.
fn pair_within_a_year(call: Call, random: &mut Random) -> Question {
    let from = any_index(random);
    let to = (from + random.below(366)).saturating_sub(30);
    Question::on(call, days::date(from)).with_second(days::date(to))
}

fn any_pair(call: Call, random: &mut Random) -> Question {
    let (from, to) = (any_index(random), any_index(random));
    Question::on(call, days::date(from)).with_second(days::date(to))
}
