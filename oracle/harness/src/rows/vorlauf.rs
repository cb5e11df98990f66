//! Verdicts and spans of a shape, and the 13:00 announcement.

use super::{both_ways, far, kalender, Row};
use crate::days::{self, DAYS};
use crate::instants::{given, moved, to_host};
use crate::original;
use crate::random::Random;
use mako_fristen::HolidayCalendar::BdewMaKo;
use mako_fristen::Sparte;
use mako_fristen_host::{Call, Date, Instant, Parameter, Question, VorlaufShape};
use time::macros::time;

const HOUR: i64 = 3600 * SECOND;
const SECOND: i64 = 1_000_000_000;

/// Codes of shapes.
pub(super) const WINDOW: u8 = 1;
pub(super) const LATEST_AFTER: u8 = 2;
pub(super) const EARLIEST_AFTER: u8 = 3;
pub(super) const KORRIDOR: u8 = 4;
pub(super) const TAG_VOR_DEM_LETZTEN_WERKTAG: u8 = 5;
pub(super) const MONATE: u8 = 6;
pub(super) const MONATE_UND_WERKTAGE: u8 = 7;

pub fn rows(seed: u64, random: u64) -> Vec<Row> {
    /// Where the original walks far, which takes it up to 40 ms for each date.
    const FAR: u64 = 24;
    const UNCAPPED: u64 = 4;
    let row = |call, what, len, question| Row::random(call, what, len, seed, question);
    let mut rows = Vec::new();
    for (call, shapes) in [(Call::VorlaufCheck, 1), (Call::VorlaufSpan, 2)] {
        rows.push(every_date(call, shapes, seed));
        rows.push(row(call, "random, by the ends of spans", random / 10, any_question));
        rows.push(row(call, "random near the edge, any count", random / 20, any_count_by_an_edge));
        let any = row(call, "random, any dates and counts", far(FAR, random), any_count);
        rows.push(both_ways(any));
        let uncapped = row(call, "random, any count, uncapped", UNCAPPED, any_count);
        rows.push(Row { expected: original::expected_uncapped, ..uncapped });
    }
    let by_verdicts = "random, by the verdicts around";
    rows.push(Row {
        expected: original::expected_of_the_verdicts,
        ..row(Call::VorlaufSpan, by_verdicts, random / 60, any_question)
    });
    rows.push(ends_of_announcements(seed));
    let announcement = Call::EogAnkuendigungFristgerecht;
    rows.push(row(
        announcement,
        "random, by the first Werktag",
        random / 1000,
        by_the_first_werktag,
    ));
    rows
}

/// Every date with so many shapes.
fn every_date(call: Call, shapes: u64, seed: u64) -> Row {
    Row::new(call, "every date", u64::from(DAYS) * shapes, move |place| {
        let mut random = Random::at(seed, u64::from(call.number()), place);
        let question = Question::on(call, days::date((place / shapes) as u32));
        anchored(any_shape(question, &mut random), &mut random)
    })
}

fn any_question(call: Call, random: &mut Random) -> Question {
    let question = Question::on(call, days::date(kalender::any_index(random)));
    anchored(any_shape(question, random), random)
}

pub(super) fn any_count(call: Call, random: &mut Random) -> Question {
    let question = any_shape(Question::new(call), random);
    let counts = [question.n, question.n2, kalender::large_count(random)];
    let question = Question {
        date: days::date(kalender::any_index(random)),
        n: random.one_of(&counts),
        n2: random.one_of(&counts),
        ..question
    };
    with_anchor(question, kalender::any_index(random))
}

/// By the edge to which the shape steps first, so that neither side walks far.
pub(super) fn any_count_by_an_edge(call: Call, random: &mut Random) -> Question {
    let question = any_shape(Question::new(call), random);
    let back = match call {
        Call::VorlaufSpan => matches!(question.code, LATEST_AFTER | KORRIDOR),
        _ => !matches!(question.code, LATEST_AFTER | EARLIEST_AFTER),
    };
    let mut index = || {
        let left = random.below(300);
        if back {
            left
        } else {
            DAYS - 1 - left
        }
    };
    let (date, anchor) = (days::date(index()), index());
    let any = match question.code {
        // It steps both ways, one of them far.
        KORRIDOR => random.below(1000),
        _ => kalender::large_count(random),
    };
    let counts = [random.below(300), random.below(3), any];
    let (n, n2) = (random.one_of(&counts), random.one_of(&counts));
    with_anchor(Question { date, n, n2, ..question }, anchor)
}

/// The question with a shape: Werktage from 0 to 70 and for a window up to twice as many, months
/// from 0 to 40 and some as far as the calendar goes and further. What the shape does not have is
/// anything.
pub(super) fn any_shape(question: Question, random: &mut Random) -> Question {
    let code = random.below(VorlaufShape::CODES.into()) as u8;
    let count = werktage(random);
    let months = match random.below(8) {
        0 => kalender::large_count(random),
        1 => random.below(10_850),
        _ => random.below(41),
    };
    let unused = random.number() as u32;
    let (n, n2) = match code {
        WINDOW if random.below(4) == 0 => (werktage(random), count),
        WINDOW => (count + werktage(random), count),
        TAG_VOR_DEM_LETZTEN_WERKTAG => (unused, unused),
        MONATE => (months, unused),
        MONATE_UND_WERKTAGE => (months, count),
        _ => (count, unused),
    };
    Question { code, n, n2, ..question }
}

/// Few are large, for the original walks them.
fn werktage(random: &mut Random) -> u32 {
    let below = match random.below(16) {
        0 => 71,
        1 => 31,
        _ => random.one_of(&[2, 3, 4, 6, 8, 11]),
    };
    random.below(below)
}

/// With an anchor, where the call takes one.
pub(super) fn anchored(question: Question, random: &mut Random) -> Question {
    if question.call.takes(Parameter::SecondDate) {
        with_anchor(question, any_anchor(&question, random))
    } else {
        question
    }
}

fn with_anchor(question: Question, index: u32) -> Question {
    if question.call.takes(Parameter::SecondDate) {
        question.with_second(days::date(index))
    } else {
        question
    }
}

/// The index of an anchor: by an end of the span that the transmission day has by its words; one in
/// eight, and all where the span has none, by the transmission day.
pub(super) fn any_anchor(question: &Question, random: &mut Random) -> u32 {
    let span = original::expected_soon(&Question { call: Call::VorlaufSpan, ..*question });
    let span = span.unwrap_or_else(|panic| panic!("{panic}"));
    let end = if span.kind() == 1 && random.below(2) == 0 { span.last_date() } else { span.date() };
    let (centre, around) = match days::given(end) {
        Ok(end) if random.below(8) != 0 => (end, 3),
        _ => (days::given(question.date).expect("a transmission day"), 30),
    };
    (days::index(centre) + random.below(2 * around + 1)).saturating_sub(around).min(DAYS - 1)
}

/// A transmission at the instant, and an anchor by an end of the span.
pub(super) fn at_an_instant(instant: Instant, random: &mut Random) -> Question {
    let on_day = Question::on(Call::VorlaufSpan, days::date(day_of(instant, random)));
    let shaped = any_shape(on_day, random);
    let anchor = any_anchor(&shaped, random);
    begun_at(instant, &shaped, anchor, random)
}

/// The shape of a question with a transmission at the instant, and the anchor of an index as the
/// beginning of its day; one in six is off by some hours, a second or a nanosecond.
pub(super) fn begun_at(
    instant: Instant,
    &Question { code, n, n2, .. }: &Question,
    anchor: u32,
    random: &mut Random,
) -> Question {
    let code2 = random.below(2) as u8;
    let sparte = [Sparte::Strom, Sparte::Gas][usize::from(code2)];
    let beginning = to_host(mako_fristen::tagesbeginn_utc(days::day(anchor), sparte));
    let off = match random.below(6) {
        0 => random.one_of(&[-6 * HOUR, -HOUR, -SECOND, -1, 1, SECOND, HOUR, 6 * HOUR]),
        _ => 0,
    };
    let question = Question::at(Call::VorlaufCheckAt, instant);
    Question { code, code2, n, n2, instant2: moved(beginning, off), ..question }
}

/// A Zuordnungsbeginn: half of them the first Werktag after the day of the instant, the others that
/// day or up to six days later.
pub(super) fn announced_at(instant: Instant, random: &mut Random) -> Question {
    let day = day_of(instant, random);
    let later = match random.below(2) {
        0 => mako_fristen::add_werktage(days::day(day), 1, BdewMaKo),
        _ => days::day(day + random.below(7)),
    };
    let date = days::to_host(later).unwrap_or(Date::LAST);
    Question { date, ..Question::at(Call::EogAnkuendigungFristgerecht, instant) }
}

/// A Zuordnungsbeginn of the calendar's first five days, and an instant of the first three.
fn by_the_first_werktag(call: Call, random: &mut Random) -> Question {
    let by = random.below(3 * 24 * 60);
    let instant = moved(Instant::FIRST, i64::from(by) * 60 * SECOND);
    Question { date: days::date(random.below(5)), ..Question::at(call, instant) }
}

/// The index of the Berlin day; of any day if the instant lies outside.
pub(super) fn day_of(instant: Instant, random: &mut Random) -> u32 {
    match given(instant) {
        Ok(at) => days::index(mako_fristen::berlin_date(at)),
        Err(_) => kalender::any_index(random),
    }
}

/// For every date: 13:00 and both ends of the last Werktag before it, and its own beginning, to the
/// second and the nanosecond.
fn ends_of_announcements(seed: u64) -> Row {
    const EACH: u64 = 3;
    let call = Call::EogAnkuendigungFristgerecht;
    Row::new(call, "every date: 13:00 and midnights", u64::from(DAYS) * EACH, move |place| {
        let mut random = Random::at(seed, u64::from(call.number()), place);
        let index = (place / EACH) as u32;
        let day = days::day(index);
        let letzter_wt = mako_fristen::sub_werktage(day, 1, BdewMaKo);
        let end = match random.below(4) {
            0 => mako_fristen::berlin_midnight(day),
            1 => mako_fristen::berlin_midnight(letzter_wt),
            2 => mako_fristen::end_of_day_berlin(letzter_wt),
            _ => mako_fristen::berlin_at(letzter_wt, time!(13:00)),
        };
        let off = random.one_of(&[-HOUR, -SECOND, -1, -1, 0, 0, 0, 1, 1, SECOND]);
        Question { date: days::date(index), ..Question::at(call, moved(to_host(end), off)) }
    })
}
