//! A clock time on a date.

use super::{corners, kalender, Row};
use crate::days::{self, DAYS};
use crate::instants::SWITCH_DAYS;
use crate::random::Random;
use mako_fristen_host::{Call, Clock, Date, Question};

pub fn rows(seed: u64, random: u64) -> Vec<Row> {
    let plain = |call| on_dates(call, "every date", DAYS, vec![Question::new(call)]);
    let sparten = [0, 1].map(|code| Question::new(Call::TagesbeginnUtc).with_code(code));
    let ends = [(0, 0, 0, 0), (12, 0, 0, 0), (23, 59, 59, 999_999_999)];
    let ends = ends.map(|(hour, minute, second, nanos)| {
        Question::new(Call::BerlinAt).with_clock(Clock::new(hour, minute, second, nanos))
    });
    vec![
        plain(Call::BerlinMidnight),
        plain(Call::EndOfDayBerlin),
        on_dates(Call::TagesbeginnUtc, "every date, both Sparten", DAYS, sparten.to_vec()),
        on_dates(Call::BerlinAt, "every date: both ends and noon", DAYS, ends.to_vec()),
        by_every_switch(),
        Row::random(Call::BerlinAt, "random, any clock", random / 5, seed, any_clock_on_a_date),
    ]
}

/// The questions, each on the calendar's first days.
pub(super) fn on_dates(call: Call, what: &'static str, days: u32, questions: Vec<Question>) -> Row {
    let each = questions.len() as u64;
    Row::new(call, what, u64::from(days) * each, move |place| {
        let date = days::date((place / each) as u32);
        Question { date, ..questions[(place % each) as usize] }
    })
}

pub(super) fn by_every_switch() -> Row {
    let clocks = clocks_by_a_switch();
    let (call, each) = (Call::BerlinAt, clocks.len() as u64);
    Row::new(call, "by every switch", SWITCH_DAYS.len() as u64 * each, move |place| {
        let day = SWITCH_DAYS[(place / each) as usize];
        Question::on(call, host_date(day)).with_clock(clocks[(place % each) as usize])
    })
}

/// From 00:00 to 05:00 every five minutes, and the seconds and nanoseconds beside 02:00 and 03:00.
fn clocks_by_a_switch() -> Vec<Clock> {
    let steps = (0..60).map(|step| Clock::new(step / 12, step % 12 * 5, 0, 0));
    let beside = [1, 2, 3].into_iter().flat_map(|hour| {
        [
            Clock::new(hour, 0, 0, 1),
            Clock::new(hour, 0, 1, 0),
            Clock::new(hour, 59, 59, 0),
            Clock::new(hour, 59, 59, 999_999_999),
        ]
    });
    steps.chain(beside).collect()
}

fn host_date(day: time::Date) -> Date {
    days::to_host(day).expect("a day of the calendar")
}

/// Half of them are by a switch.
fn any_clock_on_a_date(call: Call, random: &mut Random) -> Question {
    if random.below(2) == 0 {
        let day = host_date(random.one_of(&SWITCH_DAYS));
        return Question::on(call, day).with_clock(by_the_gap(random));
    }
    let day = days::date(kalender::any_index(random));
    Question::on(call, day).with_clock(any_clock(random))
}

/// A clock time; half of them lie from 01:00 to 04:00 or on a corner.
pub(super) fn any_clock(random: &mut Random) -> Clock {
    match random.below(4) {
        0 => by_the_gap(random),
        1 => random.one_of(&corners::CORNER_CLOCKS),
        _ => any_minute(random.below(24) as u8, random),
    }
}

/// From 01:00 to 04:00.
pub(super) fn by_the_gap(random: &mut Random) -> Clock {
    any_minute(1 + random.below(3) as u8, random)
}

fn any_minute(hour: u8, random: &mut Random) -> Clock {
    Clock::new(hour, random.below(60) as u8, random.below(60) as u8, any_nanos(random))
}

pub(super) fn any_nanos(random: &mut Random) -> u32 {
    match random.below(4) {
        0 => 0,
        1 => random.one_of(&[1, 999_999_999, 999_999_998, 500_000_000]),
        _ => random.below(1_000_000_000),
    }
}
