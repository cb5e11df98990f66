//! Arguments of every kind for every call: days and clock times of note, counts from 0 to the
//! largest, one question in four with a parameter that is refused, one answer in sixteen of another
//! length.

use super::{abmeldung, instants, kalender, uhr, vorlauf, years, Probe, Row, LONGEST};
use crate::days::{self, DAYS};
use crate::instants::{given, given_clock, moved, to_host, SWITCH_DAYS};
use crate::original::{self, ALIKE, ENDS};
use crate::random::Random;
use mako_fristen_host::{Answer, Call, Clock, Date, Instant, Parameter, Question};
use time::macros::time;
use time::Month;

const SECOND: i64 = 1_000_000_000;
const MINUTE: i64 = 60 * SECOND;
const HOUR: i64 = 60 * MINUTE;

/// One row for each call, with so many questions in all.
pub fn rows(seed: u64, questions: u64) -> Vec<Row> {
    let shares: u64 = Call::ALL.into_iter().map(share).sum();
    let row = |call| of_call(call, questions * share(call) / shares, seed);
    Call::ALL.into_iter().map(row).collect()
}

/// A call's part of the questions: less where the original walks from day to day.
fn share(call: Call) -> u64 {
    if walks(call) {
        2
    } else {
        3
    }
}

/// Whether the original walks over Werktage, by a count or from one date to another.
pub(crate) fn walks(call: Call) -> bool {
    let from_one_to_another = [Parameter::SecondDate, Parameter::SecondInstant];
    steps(call) || from_one_to_another.into_iter().any(|second| call.takes(second))
}

fn of_call(call: Call, len: u64, seed: u64) -> Row {
    const ROW: u64 = 1 << 32;
    let probe = move |place| {
        let random = &mut Random::at(seed, ROW + u64::from(call.number()), place);
        let question = match random.below(16) {
            0 if walks(call) => years::question(call, random),
            _ => question(call, random),
        };
        let len = match random.below(16) {
            0 => random.below(LONGEST as u32 + 1) as usize,
            _ => Answer::LEN,
        };
        Probe { question, len, fill: random.number() as u8 }
    };
    let what = "random, arguments of every kind";
    Row { call, what, len, probe: Box::new(probe), expected: original::expected_soon }
}

/// Whether a count of the call is of Werktage, which the original walks.
pub(crate) fn steps(call: Call) -> bool {
    call.takes(Parameter::Count)
        && !matches!(call, Call::AddMonths | Call::SubtractMonths | Call::AddHours)
}

pub(crate) fn question(call: Call, random: &mut Random) -> Question {
    let question = sound(call, random);
    match random.below(8) {
        0 => spoiled(question, random),
        1 => spoiled(spoiled(question, random), random),
        _ => question,
    }
}

/// A question of which no argument is refused by itself.
fn sound(call: Call, random: &mut Random) -> Question {
    if call.takes(Parameter::Instant) {
        return at_any_instant(call, random);
    }
    let index = if call == Call::IsWerktag { day_to_test(random) } else { any_day(random) };
    let question = Question::on(call, days::date(index));
    match call {
        Call::AddWerktage => question.with_count(werktage(DAYS - 1 - index, random)),
        Call::SubWerktage => question.with_count(werktage(index, random)),
        Call::WerktageBetween => question.with_second(days::date(other_day(index, random))),
        Call::AddMonths | Call::SubtractMonths => question.with_count(match random.below(4) {
            0 => kalender::any_months(call, random).n,
            1 => random.below(10_850),
            _ => random.below(61),
        }),
        Call::VorlaufCheck | Call::VorlaufSpan => match random.below(4) {
            0 => vorlauf::any_count_by_an_edge(call, random),
            _ => vorlauf::anchored(vorlauf::any_shape(question, random), random),
        },
        Call::AbmeldungFuer => abmeldung::any_case(call, random),
        Call::AbmeldungCheck => abmeldung::check_on(question, random),
        _ => {
            let question = question.with_clock(uhr::any_clock(random));
            question.with_code(random.below(call.codes().unwrap_or(1).into()) as u8)
        }
    }
}

fn at_any_instant(call: Call, random: &mut Random) -> Question {
    if call == Call::TagDesBeginns && random.below(8) != 0 {
        let index = any_day(random);
        return instants::beginning_of(index, call, random);
    }
    let instant = any_instant(random);
    let question = instants::filled(call, instant, random);
    if steps(call) && !call.takes(Parameter::VorlaufShape) {
        let left = (Instant::LAST.seconds - instant.seconds) / (24 * 3600);
        question.with_count(werktage(left.clamp(0, DAYS.into()) as u32, random))
    } else {
        question
    }
}

/// The index of a day for the day test; two in four are of a set of days alike, each set as often as
/// another, since some have few days in nine centuries, and one is an end of a set.
fn day_to_test(random: &mut Random) -> u32 {
    match random.below(4) {
        0 => any_day(random),
        1 => random.one_of(&ENDS),
        _ => {
            let set = random.below(ALIKE.len() as u32) as usize;
            random.one_of(&ALIKE[set])
        }
    }
}

/// The index of a day; two in three lie by a holiday, a switch, the end of a month or a year, the
/// end of February or the CONTRL's tolerance.
fn any_day(random: &mut Random) -> u32 {
    let year = |random: &mut Random| 1996 + random.below(904) as i32;
    let first = |year, month: u8| {
        let month = Month::try_from(month).expect("a month");
        days::index(time::Date::from_calendar_date(year, month, 1).expect("a first of a month"))
    };
    let centre = match random.below(9) {
        0 => random.one_of(&kalender::HOLIDAYS),
        1 => days::index(random.one_of(&SWITCH_DAYS)),
        2 => first(year(random), 1 + random.below(12) as u8),
        3 => first(year(random), 1),
        4 => first(year(random), 3),
        5 => first(year(random), random.one_of(&[4, 10])),
        _ => return kalender::any_index(random),
    };
    around(centre, 3, random)
}

pub(super) fn around(index: u32, by: u32, random: &mut Random) -> u32 {
    (index + random.below(2 * by + 1)).saturating_sub(by).min(DAYS - 1)
}

/// A day near the other; one in a thousand is any.
fn other_day(index: u32, random: &mut Random) -> u32 {
    match random.below(1000) {
        0 => any_day(random),
        _ => {
            let by = random.one_of(&[0, 3, 3, 10, 40, 400]);
            around(index, by, random)
        }
    }
}

/// Werktage to walk, with so many days left to the edge: any number of them where the edge is near,
/// else few; the original walks them.
fn werktage(left: u32, random: &mut Random) -> u32 {
    let near = left < 400 || random.below(4000) == 0;
    match random.below(64) {
        0 => random.below(3000),
        1..=7 => random.below(300),
        8..=23 => random.below(30),
        24..=39 if near => kalender::large_count(random),
        40..=55 if near => random.below(left + 2),
        _ => random.below(4),
    }
}

/// An instant; three in four are a clock time on a day of note or beside it, or so much earlier as
/// a CONTRL takes.
fn any_instant(random: &mut Random) -> Instant {
    if random.below(4) == 0 {
        return instants::any_instant(random);
    }
    let day = days::day(any_day(random));
    let Clock { hour, minute, second, nanos } = match random.below(8) {
        0 => Clock::new(13, 0, 0, 0),
        _ => uhr::any_clock(random),
    };
    // From 03:00 on no local time is absent; before, the time since midnight serves as well.
    let (from, hour) = match hour {
        0..3 => (mako_fristen::berlin_midnight(day), hour),
        _ => (mako_fristen::berlin_at(day, time!(3:00)), hour - 3),
    };
    let at = i64::from(hour) * HOUR + i64::from(minute) * MINUTE + i64::from(second) * SECOND;
    let beside = random.one_of(&[-SECOND, -1, 0, 0, 0, 0, 1, SECOND]);
    let lead = random.one_of(&[0, 0, 0, 15 * MINUTE, 45 * MINUTE, 6 * HOUR]);
    moved(to_host(from), at + i64::from(nanos) + beside - lead)
}

/// With one parameter that is refused, where it can be. A good one in its place might send the
/// original on a long walk.
fn spoiled(question: Question, random: &mut Random) -> Question {
    let parameter = random.one_of(question.call.parameters());
    for _ in 0..8 {
        let spoiled = with_any(question, parameter, random);
        let refused = match parameter {
            Parameter::Date => days::given(spoiled.date).is_err(),
            Parameter::SecondDate => days::given(spoiled.date2).is_err(),
            Parameter::Instant => given(spoiled.instant).is_err(),
            Parameter::SecondInstant => given(spoiled.instant2).is_err(),
            Parameter::Clock => given_clock(spoiled.clock).is_err(),
            Parameter::Count => !steps(question.call),
            Parameter::SecondCount => false,
            _ => true,
        };
        if refused {
            return spoiled;
        }
    }
    question
}

/// The question with any number or numbers for the parameter; no code that is known, since another
/// shape may take the counts otherwise.
pub(crate) fn with_any(question: Question, parameter: Parameter, random: &mut Random) -> Question {
    match parameter {
        Parameter::Date => Question { date: any_numbers(random), ..question },
        Parameter::SecondDate => question.with_second(any_numbers(random)),
        Parameter::Instant => Question { instant: any_seconds(random), ..question },
        Parameter::SecondInstant => question.with_second_instant(any_seconds(random)),
        Parameter::Clock => question.with_clock(any_hands(random)),
        Parameter::Count | Parameter::Pid => question.with_count(any_number(random)),
        Parameter::SecondCount => question.with_second_count(any_number(random)),
        Parameter::Reason => question.with_reason(abmeldung::any_reason(random)),
        Parameter::SecondSparte => question.with_second_code(unknown_code(parameter, random)),
        Parameter::Anlass
        | Parameter::Sparte
        | Parameter::Shape
        | Parameter::VorlaufShape
        | Parameter::Eeg => question.with_code(unknown_code(parameter, random)),
    }
}

fn unknown_code(parameter: Parameter, random: &mut Random) -> u8 {
    let codes = parameter.codes().unwrap_or_default();
    match random.below(2) {
        0 => codes,
        _ => codes + random.below(256 - u32::from(codes)) as u8,
    }
}

/// Numbers of a date, each by its limits or any.
pub(super) fn any_numbers(random: &mut Random) -> Date {
    let year = match random.below(4) {
        0 => random.number() as u16,
        1 => random.one_of(&[0, 1995, 1996, 2899, 2900, 9999, u16::MAX]),
        _ => 1996 + random.below(904) as u16,
    };
    let month = match random.below(4) {
        0 => random.number() as u8,
        1 => random.one_of(&[0, 1, 2, 12, 13]),
        _ => 1 + random.below(12) as u8,
    };
    let day = match random.below(4) {
        0 => random.number() as u8,
        1 => random.one_of(&[0, 1, 32]),
        _ => 28 + random.below(4) as u8,
    };
    Date::new(year, month, day)
}

/// By the limits, or with any number of bits.
fn any_seconds(random: &mut Random) -> Instant {
    let limit = random.one_of(&[Instant::FIRST, Instant::LAST]);
    let seconds = match random.below(4) {
        0 => limit.seconds.saturating_add(i64::from(random.below(5)) - 2),
        1 => random.one_of(&[i64::MIN, i64::MIN + 1, -1, 0, 1, i64::MAX - 1, i64::MAX]),
        2 => (random.number() >> random.below(64)) as i64,
        _ => limit.seconds,
    };
    Instant::new(seconds, any_nanos(random))
}

fn any_nanos(random: &mut Random) -> u32 {
    match random.below(3) {
        0 => random.one_of(&[0, 999_999_999, 1_000_000_000, 1_000_000_001, u32::MAX]),
        1 => random.number() as u32,
        _ => random.below(1_000_000_000),
    }
}

fn any_hands(random: &mut Random) -> Clock {
    let sound = uhr::any_clock(random);
    let any = random.number() as u8;
    match random.below(6) {
        0 => Clock { hour: random.one_of(&[24, 25, any]), ..sound },
        1 => Clock { minute: random.one_of(&[60, 61, any]), ..sound },
        2 => Clock { second: random.one_of(&[60, 61, any]), ..sound },
        3 => Clock::new(any, random.number() as u8, random.number() as u8, any_nanos(random)),
        _ => Clock { nanos: any_nanos(random), ..sound },
    }
}

/// Of any number of bits.
fn any_number(random: &mut Random) -> u32 {
    (random.number() as u32) >> random.below(32)
}

#[cfg(test)]
mod tests {
    use super::{question, rows, share};
    use crate::days;
    use crate::original::{ALIKE, ENDS};
    use crate::random::Random;
    use mako_fristen_host::{Answer, Call, Date, Parameter};
    use std::collections::HashSet;

    /// How many questions each call has for a look at its arguments.
    const LOOK: u64 = 2000;

    #[test]
    fn every_call_has_its_share() {
        let shares: u64 = Call::ALL.into_iter().map(share).sum();
        let rows = rows(1, shares * 1_000_000);
        assert!(Call::ALL.into_iter().eq(rows.iter().map(|row| row.call)));
        for row in rows {
            assert_eq!(row.len, share(row.call) * 1_000_000, "{}", row.call.name());
        }
    }

    /// Every refusal that a parameter can lead to is met, and a good part of the questions is answered.
    #[test]
    fn answers_and_refusals_of_every_call_are_met() {
        for row in rows(1, 100 * LOOK) {
            let probes = (0..LOOK).map(|place| (row.probe)(place));
            let whole = probes.filter(|probe| probe.len == Answer::LEN);
            let expected = whole.map(|probe| (row.expected)(&probe.question));
            let numbers: Vec<u8> =
                expected.map(|answer| answer.expect("no unknown panic").number()).collect();
            let answered = numbers.iter().filter(|&&number| number == 0).count();
            assert!(answered * 3 > numbers.len(), "{}: {answered}", row.call.name());
            let met: HashSet<u8> = numbers.into_iter().collect();
            for number in refusals(row.call) {
                assert!(met.contains(&number), "{}: {number}", row.call.name());
            }
        }
    }

    /// Weekends and holidays, holidays on a weekend, two holidays on one date, and the ends of each: a
    /// fuzzing has about as many questions.
    #[test]
    fn days_of_every_kind_are_tested() {
        let asked = |place| question(Call::IsWerktag, &mut Random::at(1, 0, place)).date;
        let dates: HashSet<Date> = (0..LOOK).map(asked).collect();
        let met =
            |days: &[u32]| days.iter().filter(|&&day| dates.contains(&days::date(day))).count();
        for set in ALIKE.iter() {
            assert!(met(set) > 2, "{}: {} of {}", days::date(set[0]), met(set), set.len());
        }
        assert!(met(&ENDS) * 10 > ENDS.len() * 9, "{} of {}", met(&ENDS), ENDS.len());
    }

    fn refusals(call: Call) -> Vec<u8> {
        let takes = |parameter| call.takes(parameter);
        let mut numbers = Vec::new();
        numbers.extend(call.codes().map(|_| 2));
        numbers.extend(takes(Parameter::Date).then_some(3));
        numbers.extend(takes(Parameter::Instant).then_some(4));
        numbers.extend(takes(Parameter::Clock).then_some(5));
        numbers.extend((call == Call::BerlinAt).then_some(6));
        numbers
            .extend((call == Call::TagDesBeginns || takes(Parameter::SecondInstant)).then_some(7));
        let leaves = takes(Parameter::Count) || call == Call::ContrlDueAtChange;
        numbers.extend(leaves.then_some(8));
        numbers
    }

    #[test]
    fn answers_of_other_lengths_are_lent() {
        for row in rows(1, 100 * LOOK) {
            let lens: HashSet<usize> = (0..LOOK).map(|place| (row.probe)(place).len).collect();
            assert!(lens.len() > 40 && lens.contains(&Answer::LEN), "{}", row.call.name());
        }
    }
}
