//! Change days of the CONTRL: every date with the ends of its window, the windows by switches and those
//! of version one, both edges of the calendar.

use super::{any, instants, kalender, vorlauf, Row};
use crate::days::{self, DAYS};
use crate::instants::{given, moved, to_host, tolerance_ends, SWITCH_DAYS, TOLERANCE_ENDS};
use crate::random::Random;
use mako_fristen_host::{Call, ContrlAnlass, Date, Instant, Question};
use time::macros::{date, datetime};
use time::Weekday::Saturday;

const CALL: Call = Call::ContrlDueAtChange;
const SECOND: i64 = 1_000_000_000;
const MINUTE: i64 = 60 * SECOND;
const HOUR: i64 = 60 * MINUTE;
/// The change days of version one are the first of these.
const MONTHS: [u8; 2] = [4, 10];

pub fn rows(seed: u64, random: u64) -> Vec<Row> {
    vec![
        every_date(seed),
        by_every_switch(),
        by_version_one(),
        every_two_days_of_a_year(seed),
        by_both_edges(),
        Row::random(CALL, "random, by a window", random / 10, seed, by_a_window),
        Row::random(CALL, "random, any change day", random / 40, seed, any_change_day),
    ]
}

/// A receipt of this Anlass that is due at the instant before the tolerance. On a Saturday from 00:15 to
/// before 06:00 no StromUtilmdOderOrders is: then it is due at another.
fn due(at: Instant, code: u8, change_day: Date) -> Question {
    let earlier = |by: i64| moved(at, -by);
    let received = match code {
        0 => earlier(6 * HOUR),
        1 if is_saturday(earlier(6 * HOUR)) => earlier(6 * HOUR),
        1 => earlier(15 * MINUTE),
        _ => earlier(45 * MINUTE),
    };
    with_change_day(received, code, change_day)
}

fn with_change_day(received: Instant, code: u8, change_day: Date) -> Question {
    Question { date: change_day, ..Question::at(CALL, received).with_code(code) }
}

fn is_saturday(instant: Instant) -> bool {
    given(instant).is_ok_and(|at| mako_fristen::berlin_date(at).weekday() == Saturday)
}

fn any_code(random: &mut Random) -> u8 {
    random.one_of(&ContrlAnlass::ALL).code()
}

/// Both ends of the window and the nanoseconds beside, and an instant inside, the Anlässe in turn.
fn every_date(seed: u64) -> Row {
    const BESIDE: [i64; 3] = [-1, 0, 1];
    const EACH: u64 = 2 * BESIDE.len() as u64 + 1;
    Row::new(CALL, "every date, its window's ends", u64::from(DAYS) * EACH, move |place| {
        let (index, point) = ((place / EACH) as u32, (place % EACH) as usize);
        let ends = tolerance_ends(days::day(index));
        let at = match ends.get(point / BESIDE.len()) {
            Some(&end) => moved(end, BESIDE[point % BESIDE.len()]),
            None => between(ends, &mut Random::at(seed, CALL.number().into(), place)),
        };
        let anlass = ContrlAnlass::ALL[(index as usize + point) % ContrlAnlass::ALL.len()];
        due(at, anlass.code(), days::date(index))
    })
}

/// An instant from the one on and before the other.
fn between([from, to]: [Instant; 2], random: &mut Random) -> Instant {
    let second = random.below((to.seconds - from.seconds) as u32);
    moved(from, i64::from(second) * SECOND + i64::from(random.below(SECOND as u32)))
}

/// Each Anlass with each of these.
fn of_each_anlass<T: Copy>(all: &[T]) -> Vec<(T, u8)> {
    let of_each = |&one| ContrlAnlass::ALL.map(|anlass| (one, anlass.code()));
    all.iter().flat_map(of_each).collect()
}

/// The day of each switch and two days before and after: a window that has the switch in it is 29 hours
/// long, or 31, and those about it are 30. Both ends to the hour, the second and the nanosecond.
fn by_every_switch() -> Row {
    const WINDOWS: u64 = 5;
    const ENDS: u64 = 2;
    let beside = of_each_anlass(&[-HOUR, -SECOND, -1, 0, 1, SECOND, HOUR]);
    let each = beside.len() as u64;
    let len = SWITCH_DAYS.len() as u64 * WINDOWS * ENDS * each;
    Row::new(CALL, "the windows by every switch", len, move |place| {
        let (by, code) = beside[(place % each) as usize];
        let (end, window) = ((place / each % ENDS) as usize, place / each / ENDS);
        let switch = days::index(SWITCH_DAYS[(window / WINDOWS) as usize]);
        let index = switch + (window % WINDOWS) as u32 - 2;
        due(moved(tolerance_ends(days::day(index))[end], by), code, days::date(index))
    })
}

/// The ends of both windows that version one has in each year, with 1 April and 1 October of the year,
/// of the one before and of the one after: one window is open, or none.
fn by_version_one() -> Row {
    const CHANGE_DAYS: u64 = 6;
    const OF_YEAR: u64 = 4;
    let beside = of_each_anlass(&[-SECOND, -1, 0, 1, SECOND]);
    let each = beside.len() as u64;
    let len = TOLERANCE_ENDS.len() as u64 * CHANGE_DAYS * each;
    Row::new(CALL, "1 April and 1 October", len, move |place| {
        let (by, code) = beside[(place % each) as usize];
        let (change_day, end) = (place / each % CHANGE_DAYS, place / each / CHANGE_DAYS);
        let year = Date::FIRST.year + (end / OF_YEAR) as u16 + (change_day / 2) as u16 - 1;
        let change_day = Date::new(year, MONTHS[(change_day % 2) as usize], 1);
        due(moved(TOLERANCE_ENDS[end as usize], by), code, change_day)
    })
}

/// Each day of 2024 with a receipt of each. It is a leap year, and 1 April follows a switch.
fn every_two_days_of_a_year(seed: u64) -> Row {
    const ROW: u64 = 9 << 32;
    const YEAR: u64 = 366;
    let first = days::index(date!(2024 - 01 - 01));
    Row::new(CALL, "every two days of 2024", YEAR * YEAR, move |place| {
        let random = &mut Random::at(seed, ROW, place);
        let [change_day, day] = [place / YEAR, place % YEAR].map(|day| first + day as u32);
        let midnight = |index| to_host(mako_fristen::berlin_midnight(days::day(index)));
        let received = between([midnight(day), midnight(day + 1)], random);
        with_change_day(received, any_code(random), days::date(change_day))
    })
}

/// The first three days and the last three: receipts of every quarter of an hour of five days at either
/// edge, in the middle, on the limits and past them.
fn by_both_edges() -> Row {
    const QUARTERS: i64 = 5 * 24 * 4;
    let change_days = [0, 1, 2, DAYS - 3, DAYS - 2, DAYS - 1].map(days::date);
    let at = |edge: Instant, towards: i64| {
        let inside = (0..QUARTERS).map(move |quarter| quarter * 15 * MINUTE);
        let past = [1, SECOND, HOUR].map(|by| -by);
        inside.chain(past).map(move |by| moved(edge, by * towards))
    };
    let middle = to_host(datetime!(2447-12-31 11:00 UTC));
    let received = at(Instant::FIRST, 1).chain(at(Instant::LAST, -1)).chain([middle]);
    let received = of_each_anlass(&received.collect::<Vec<Instant>>());
    let each = received.len() as u64;
    let len = change_days.len() as u64 * each;
    Row::new(CALL, "change days by both edges", len, move |place| {
        let (received, code) = received[(place % each) as usize];
        with_change_day(received, code, change_days[(place / each) as usize])
    })
}

/// Due within 36 hours of an end of the window of any date.
fn by_a_window(_: Call, random: &mut Random) -> Question {
    let index = kalender::any_index(random);
    let end = random.one_of(&tolerance_ends(days::day(index)));
    let at = instants::within(end, 36 * HOUR, random);
    due(at, any_code(random), days::date(index))
}

/// Any change day with any receipt; one in four is no date, or likely none.
fn any_change_day(_: Call, random: &mut Random) -> Question {
    let date = match random.below(4) {
        0 => any::any_numbers(random),
        _ => days::date(kalender::any_index(random)),
    };
    with_change_day(instants::any_instant(random), any_code(random), date)
}

/// The ends of windows with the nanosecond before each, the Anlässe in turn: 1 April and 1 October 2026,
/// 6 June 2025, a Saturday and a Sunday, both switches of 2026, by the edges. The other window of version
/// one; change days beside which a day leaves the calendar; receipts outside their limits.
#[must_use]
pub fn of_note() -> Vec<Question> {
    let change_days = [
        date!(2026 - 04 - 01),
        date!(2026 - 10 - 01),
        date!(2025 - 06 - 06),
        date!(2026 - 06 - 06),
        date!(2026 - 06 - 07),
        date!(2026 - 03 - 29),
        date!(2026 - 10 - 25),
        date!(1996 - 01 - 02),
        date!(2899 - 12 - 30),
    ]
    .map(days::index);
    let ends = |index| tolerance_ends(days::day(index));
    let beside = |index| {
        let of_end = move |end| [moved(end, -1), end].map(|at| (at, index));
        ends(index).into_iter().flat_map(of_end)
    };
    let [april, october, ..] = change_days;
    let others = [(october, april), (april, october), (april, 0), (april, DAYS - 1)];
    let others = others.map(|(window, index)| (ends(window)[0], index));
    let all = change_days.into_iter().flat_map(beside).chain(others);
    let anlaesse = ContrlAnlass::ALL.into_iter().cycle();
    let due = |((at, index), anlass): (_, ContrlAnlass)| due(at, anlass.code(), days::date(index));
    let outside = [moved(Instant::FIRST, -1), moved(Instant::LAST, 1)];
    let outside = outside.map(|received| with_change_day(received, 0, days::date(april)));
    all.zip(anlaesse).map(due).chain(outside).collect()
}

/// A receipt of any Anlass. Most change days are by its own day; some are those of version one, in its
/// year or beside, the calendar's first two and last two, or any.
pub(super) fn received_at(instant: Instant, random: &mut Random) -> Question {
    let day = vorlauf::day_of(instant, random);
    let index = match random.below(8) {
        0 => kalender::any_index(random),
        1 => random.one_of(&[0, 1, DAYS - 2, DAYS - 1]),
        2 => of_version_one(day, random),
        _ => any::around(day, 2, random),
    };
    with_change_day(instant, any_code(random), days::date(index))
}

fn of_version_one(day: u32, random: &mut Random) -> u32 {
    let year = days::day(day).year() + random.below(3) as i32 - 1;
    let year = year.clamp(Date::FIRST.year.into(), Date::LAST.year.into());
    let first = Date::new(year as u16, random.one_of(&MONTHS), 1);
    days::index(days::given(first).expect("a first of a month"))
}

#[cfg(test)]
mod tests {
    use super::{CALL, HOUR};
    use crate::days;
    use crate::instants::{moved, tolerance_ends, TOLERANCE_ENDS};
    use crate::original;
    use crate::random::Random;
    use crate::rows::{rows, Row};
    use mako_fristen_host::{Answer, Date, Instant, Question};
    use std::collections::HashMap;

    const DAY: i64 = 24 * HOUR;

    /// A question that is answered: its receipt, when it is due before the tolerance and with it, and the
    /// ends of its window.
    struct Asked {
        received: Instant,
        before: Instant,
        due: Instant,
        opens: Instant,
        closes: Instant,
    }

    impl Asked {
        fn of(question: &Question) -> Option<Asked> {
            let [opens, closes] = tolerance_ends(days::given(question.date).ok()?);
            let [due, before] = [*question, far_off(question)].map(|question| answer(&question));
            let (received, before) = (question.instant, before.instant());
            let due = (due.number() == 0).then_some(due.instant())?;
            Some(Asked { received, before, due, opens, closes })
        }

        /// When it is due with another window.
        fn with(&self, [from, to, end]: [Instant; 3]) -> Instant {
            if (from..to).contains(&self.before) {
                end
            } else {
                self.before
            }
        }
    }

    /// From when on, before when, and when it is due.
    type Window = fn(&Asked) -> [Instant; 3];

    fn answer(question: &Question) -> Answer {
        original::expected(question).expect("no unknown panic")
    }

    /// The question with a change day whose window is centuries away.
    fn far_off(question: &Question) -> Question {
        let late = question.instant.seconds > 1 << 33;
        let date = if late { Date::new(1997, 1, 1) } else { Date::new(2898, 1, 1) };
        Question { date, ..*question }
    }

    /// So many questions of every row of the call, or as many as it has.
    fn questions() -> Vec<Question> {
        const EACH: u64 = 10_000;
        let some = |row: Row| {
            let places = (0..EACH.min(row.len)).map(|place| Random::at(1, 3, place).number());
            let probes = places.map(|number| (row.probe)(number % row.len));
            let whole = probes.filter(|probe| probe.len == Answer::LEN);
            whole.map(|probe| probe.question).collect::<Vec<Question>>()
        };
        let rows = rows(1, 2_000_000).into_iter().filter(|row| row.call == CALL);
        rows.flat_map(some).collect()
    }

    /// The end of the window of version one that has the instant.
    fn by_version_one(at: Instant) -> Option<Instant> {
        let mut windows = TOLERANCE_ENDS.chunks_exact(2);
        windows.find(|ends| (ends[0]..ends[1]).contains(&at)).map(|ends| ends[1])
    }

    /// By instants, where the expected answer has its window by Berlin's clock. Each other window gives
    /// another answer to some of the questions.
    #[test]
    fn a_wrong_window_is_seen() {
        let asked: Vec<Asked> = questions().iter().filter_map(Asked::of).collect();
        let others = |reading: &dyn Fn(&Asked) -> Instant| {
            asked.iter().filter(|asked| reading(asked) != asked.due).count()
        };
        let right = |a: &Asked| a.with([a.opens, a.closes, a.closes]);
        assert_eq!(others(&right), 0);
        let wrong: [(&str, Window); 12] = [
            ("none", |a| [a.opens, a.opens, a.closes]),
            ("from 18:00 of the day", |a| [moved(a.opens, DAY), a.closes, a.closes]),
            ("from 00:00 of the day", |a| [moved(a.opens, 6 * HOUR), a.closes, a.closes]),
            ("30 hours to 00:00", |a| [moved(a.closes, -30 * HOUR), a.closes, a.closes]),
            ("without 18:00", |a| [moved(a.opens, 1), a.closes, a.closes]),
            ("from before 18:00", |a| [moved(a.opens, -1), a.closes, a.closes]),
            ("to 00:00 of the day", |a| [a.opens, moved(a.opens, 6 * HOUR), a.closes]),
            ("30 hours from 18:00", |a| [a.opens, moved(a.opens, 30 * HOUR), a.closes]),
            ("to before the last instant", |a| [a.opens, moved(a.closes, -1), a.closes]),
            ("to an instant after 00:00", |a| [a.opens, moved(a.closes, 2), a.closes]),
            ("due by its last instant", |a| [a.opens, a.closes, moved(a.closes, -1)]),
            ("due after 30 hours", |a| [a.opens, a.closes, moved(a.opens, 30 * HOUR)]),
        ];
        for (what, window) in wrong {
            let others = others(&|a| a.with(window(a)));
            assert!(others > 100, "{what}: {others}");
        }
        let by_the_receipt = others(&|a| {
            let inside = (a.opens..a.closes).contains(&a.received);
            a.before.max(if inside { a.closes } else { a.before })
        });
        let with_version_one = others(&|a| by_version_one(a.before).unwrap_or(right(a)));
        let version_one = others(&|a| by_version_one(a.before).unwrap_or(a.before));
        let counts = [by_the_receipt, with_version_one, version_one];
        assert!(counts.iter().all(|&others| others > 1000), "{counts:?}");
    }

    /// By the day beside the change day alone, too.
    #[test]
    fn every_refusal_is_met() {
        let mut met = HashMap::new();
        for question in questions() {
            let number = answer(&question).number();
            let alone = number == 8 && answer(&far_off(&question)).number() == 0;
            *met.entry((number, alone.then_some(question.date))).or_insert(0) += 1;
        }
        let others = [2, 3, 4, 8].map(|number| (number, None));
        let by_a_day = [Date::FIRST, Date::LAST].map(|date| (8, Some(date)));
        for refused in others.into_iter().chain(by_a_day) {
            let met = met.get(&refused).copied().unwrap_or_default();
            assert!(met > 50, "{refused:?}: {met}");
        }
    }
}
