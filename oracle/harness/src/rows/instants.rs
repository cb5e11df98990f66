//! The calls that take an instant: the days of instants, and due instants.

use super::{both_ways, change_days, corners, far, kalender, uhr, vorlauf, Row};
use crate::days::{self, DAYS};
use crate::instants::{self, moved, SWITCHES, TOLERANCE_ENDS};
use crate::original;
use crate::random::Random;
use mako_fristen_host::{Call, Clock, ContrlAnlass, Instant, Parameter, Question};

const SECOND: i64 = 1_000_000_000;
const MINUTE: i64 = 60 * SECOND;
const HOUR: i64 = 60 * MINUTE;

pub fn rows(seed: u64, random: u64) -> Vec<Row> {
    let taking_an_instant = Call::ALL.into_iter().filter(|call| call.takes(Parameter::Instant));
    let mut rows: Vec<Row> =
        taking_an_instant.flat_map(|call| of_call(call, seed, random)).collect();
    rows.push(ends_of_the_tolerance());
    let random = |call, what, question| Row::random(call, what, random / 10, seed, question);
    rows.push(random(Call::ContrlDueAt, "random, by the tolerance", by_the_tolerance));
    rows.push(random(Call::TagDesBeginns, "random, beginnings", beginning));
    rows.push(random(Call::FristDueAt, "random, SameDayAt by a switch", same_day_by_a_switch));
    rows
}

fn of_call(call: Call, seed: u64, random: u64) -> Vec<Row> {
    const FAR: u64 = 40;
    const UNCAPPED: u64 = 2;
    let row = |what, len, question| Row::random(call, what, len, seed, question);
    let mut rows = vec![
        every_day(call, seed),
        by_every_switch(call, seed),
        by_the_edges(call, seed),
        row("random, any instant", random / 10, any_question),
    ];
    if call.takes(Parameter::Count) && call != Call::AddHours {
        rows.push(both_ways(row("random, any count", far(FAR, random), any_count)));
        let uncapped = row("random, any count, uncapped", UNCAPPED, any_count);
        rows.push(Row { expected: original::expected_uncapped, ..uncapped });
    }
    rows
}

/// A row over instants, whose other arguments are random.
fn over(
    call: Call,
    what: &'static str,
    len: u64,
    seed: u64,
    instant: impl Fn(u64) -> Instant + Sync + 'static,
) -> Row {
    Row::new(call, what, len, move |place| {
        let mut random = Random::at(seed, u64::from(call.number()), place);
        filled(call, instant(place), &mut random)
    })
}

/// Midnight, the nanosecond before, and noon; where beginnings are asked for, 06:00 and not noon. A
/// verdict, which takes the original longest, has one of the three for each day.
fn every_day(call: Call, seed: u64) -> Row {
    let (what, hour) = match call {
        Call::TagDesBeginns => ("every midnight and 06:00", 6),
        _ => ("every midnight and noon", 12),
    };
    let at = time::Time::from_hms(hour, 0, 0).expect("a clock time");
    let each = if call == Call::VorlaufCheckAt { 1 } else { 3 };
    over(call, what, u64::from(DAYS) * each, seed, move |place| {
        let day = days::day((place / each) as u32);
        let midnight = || instants::to_host(mako_fristen::berlin_midnight(day));
        match place % 3 {
            0 => midnight(),
            1 => moved(midnight(), -1),
            _ => instants::to_host(mako_fristen::berlin_at(day, at)),
        }
    })
}

/// Two hours before to two hours after, every five minutes, and the seconds and nanoseconds beside.
pub(super) fn by_every_switch(call: Call, seed: u64) -> Row {
    let steps = (-24..=24).map(|step| step * 5 * MINUTE);
    let by: Vec<i64> = steps.chain([-SECOND, -1, 1, SECOND]).collect();
    let each = by.len() as u64;
    over(call, "by every switch", SWITCHES.len() as u64 * each, seed, move |place| {
        moved(SWITCHES[(place / each) as usize], by[(place % each) as usize])
    })
}

/// Every quarter of an hour of ten days at either edge, and the limits.
fn by_the_edges(call: Call, seed: u64) -> Row {
    const QUARTER: i64 = 15 * MINUTE;
    let inside = (0..10 * 24 * 4).flat_map(|step| {
        [moved(Instant::FIRST, step * QUARTER), moved(Instant::LAST, -step * QUARTER)]
    });
    let limits = [Instant::FIRST, Instant::LAST]
        .into_iter()
        .flat_map(|limit| [-HOUR, -SECOND, -1, 1, SECOND, HOUR].map(|by| moved(limit, by)));
    let instants: Vec<Instant> = inside.chain(limits).collect();
    over(call, "by both edges", instants.len() as u64, seed, move |place| instants[place as usize])
}

/// Every end of the tolerance, and the receipts whose CONTRL is due there, to the second and the
/// nanosecond, for each Anlass.
fn ends_of_the_tolerance() -> Row {
    let leads = [0, 15 * MINUTE, 45 * MINUTE, 6 * HOUR];
    let beside = [-SECOND, -1, 0, 1, SECOND];
    let anlass = |by: i64| ContrlAnlass::ALL.map(|anlass| (by, anlass.code()));
    let each: Vec<(i64, u8)> = leads
        .into_iter()
        .flat_map(|lead| beside.map(|beside| beside - lead))
        .flat_map(anlass)
        .collect();
    let (call, len) = (Call::ContrlDueAt, each.len() as u64);
    let what = "the ends of every tolerance";
    Row::new(call, what, TOLERANCE_ENDS.len() as u64 * len, move |place| {
        let (by, code) = each[(place % len) as usize];
        let end = TOLERANCE_ENDS[(place / len) as usize];
        Question::at(call, moved(end, by)).with_code(code)
    })
}

fn by_the_tolerance(call: Call, random: &mut Random) -> Question {
    let end = random.one_of(&TOLERANCE_ENDS);
    let instant = within(end, 36 * HOUR, random);
    filled(call, instant, random)
}

fn beginning(call: Call, random: &mut Random) -> Question {
    let index = kalender::any_index(random);
    beginning_of(index, call, random)
}

/// The beginning of the day in a Sparte; one in three is off by an hour, a second or a nanosecond.
pub(super) fn beginning_of(index: u32, call: Call, random: &mut Random) -> Question {
    let (day, code) = (days::day(index), random.below(2) as u8);
    let at = time::Time::from_hms(code * 6, 0, 0).expect("a clock time");
    let beginning = instants::to_host(mako_fristen::berlin_at(day, at));
    let off = random.one_of(&[0, 0, 0, 0, 0, 0, 0, 0, -HOUR, HOUR, -SECOND, 1]);
    Question::at(call, moved(beginning, off)).with_code(code)
}

/// Received on the day of a switch, or in the hour after it.
pub(super) fn same_day_by_a_switch(call: Call, random: &mut Random) -> Question {
    const SAME_DAY_AT: u8 = 2;
    let by = (random.number() >> 1) as i64 % (24 * HOUR) - 2 * HOUR;
    let instant = moved(random.one_of(&SWITCHES), by);
    Question::at(call, instant).with_code(SAME_DAY_AT).with_clock(uhr::by_the_gap(random))
}

fn any_question(call: Call, random: &mut Random) -> Question {
    let instant = any_instant(random);
    filled(call, instant, random)
}

pub(super) fn any_count(call: Call, random: &mut Random) -> Question {
    let instant = any_instant(random);
    filled(call, instant, random).with_count(kalender::large_count(random))
}

/// An instant; half of them lie by an edge, a switch or the tolerance.
pub(super) fn any_instant(random: &mut Random) -> Instant {
    let instant = match random.below(8) {
        0 => moved(Instant::FIRST, spread(random, 300 * 24 * HOUR)),
        1 => moved(Instant::LAST, -spread(random, 300 * 24 * HOUR)),
        2 => within(random.one_of(&SWITCHES), 30 * HOUR, random),
        3 => within(random.one_of(&TOLERANCE_ENDS), 12 * HOUR, random),
        _ => {
            let seconds = Instant::LAST.seconds - Instant::FIRST.seconds;
            let offset = (u128::from(random.number()) * (seconds as u128 + 1)) >> 64;
            Instant::new(Instant::FIRST.seconds + offset as i64, 0)
        }
    };
    Instant { nanos: uhr::any_nanos(random), ..instant }
}

/// Nanoseconds from 0 on; half of them within a sixtieth of the bound.
fn spread(random: &mut Random, bound: i64) -> i64 {
    let bound = if random.below(2) == 0 { bound } else { bound / 60 };
    (random.number() >> 1) as i64 % bound
}

pub(super) fn within(instant: Instant, bound: i64, random: &mut Random) -> Instant {
    let by = spread(random, bound);
    moved(instant, if random.below(2) == 0 { by } else { -by })
}

/// The call at the instant, with all other arguments at random.
pub(super) fn filled(call: Call, instant: Instant, random: &mut Random) -> Question {
    match call {
        Call::VorlaufCheckAt => return vorlauf::at_an_instant(instant, random),
        Call::EogAnkuendigungFristgerecht => return vorlauf::announced_at(instant, random),
        Call::ContrlDueAtChange => return change_days::received_at(instant, random),
        _ => {}
    }
    let question = Question::at(call, instant);
    call.parameters().iter().fold(question, |question, parameter| match parameter {
        Parameter::Count if call == Call::AddHours => question.with_count(hours(instant, random)),
        Parameter::Count => question.with_count(small_count(random)),
        Parameter::Pid => question.with_count(pid(random)),
        Parameter::Clock => question.with_clock(clock_for(instant, random)),
        code => match code.codes() {
            Some(codes) => question.with_code(random.below(codes.into()) as u8),
            None => question,
        },
    })
}

fn small_count(random: &mut Random) -> u32 {
    let below = random.one_of(&[2, 4, 12, 70]);
    random.below(below)
}

fn pid(random: &mut Random) -> u32 {
    match random.below(4) {
        0 => random.number() as u32,
        _ => random.one_of(&corners::PIDS),
    }
}

/// One in four leads to the last hours of the calendar or just past them.
fn hours(instant: Instant, random: &mut Random) -> u32 {
    let left = (Instant::LAST.seconds - instant.seconds) / 3600;
    match random.below(4) {
        0 => (left + i64::from(random.below(5)) - 2).max(0) as u32,
        1 => random.below(100),
        2 => random.below(8_000_000),
        _ => kalender::large_count(random),
    }
}

/// A clock time; one in four is the receipt's own, or a nanosecond or second beside it.
fn clock_for(instant: Instant, random: &mut Random) -> Clock {
    if random.below(4) != 0 {
        return uhr::any_clock(random);
    }
    let beside = moved(instant, random.one_of(&[-SECOND, -1, 0, 0, 1, SECOND]));
    match instants::given(beside) {
        Ok(beside) => instants::clock_to_host(mako_fristen::in_berlin(beside).time()),
        Err(_) => uhr::any_clock(random),
    }
}
