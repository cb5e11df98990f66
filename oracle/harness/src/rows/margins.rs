//! Margins about 0 on every date, margins as far as the calendar goes, and last permitted days at its
//! edges and past them.

use super::vorlauf::{
    self, EARLIEST_AFTER, KORRIDOR, LATEST_AFTER, MONATE, MONATE_UND_WERKTAGE, WINDOW,
};
use super::{abmeldung, both_ways, far, years, Row};
use crate::days::{self, DAYS};
use crate::instants::to_host;
use crate::original::{self, werktage_before};
use crate::random::Random;
use mako_fristen_host::{Call, Date, Eeg, Question, Reason, VorlaufShape};
use time::macros::date;

const SHAPES: u64 = VorlaufShape::CODES as u64;
/// Below 0, at 0 and above.
const SIGNS: u64 = 3;
const ABOUT_0: &str = "every date, margins about 0";

pub fn rows(seed: u64, random: u64) -> Vec<Row> {
    /// Where the original walks far, which takes it up to 100 ms for each.
    const FAR: u64 = 24;
    let far_off = |call, what, len| Row::random(call, what, len, seed, far_off);
    let walked = far_off(Call::VorlaufCheck, "random, far margins, walked", far(FAR, random));
    let mut rows = vec![
        every_shape(seed),
        every_date(Call::VorlaufCheckAt, seed),
        every_date(Call::AbmeldungCheck, seed),
        by_the_checks(seed),
        both_ways(from_edge_to_edge()),
        both_ways(walked),
        by_list(to_the_edge(seed)),
    ];
    let calls = Call::ALL.into_iter().filter(|&call| original::has_margin(call));
    rows.extend(calls.map(|call| by_list(far_off(call, "random, far margins", random / 40))));
    rows
}

fn by_list(row: Row) -> Row {
    Row { expected: original::expected_by_list, ..row }
}

/// Every date with every shape: a margin of each sign.
fn every_shape(seed: u64) -> Row {
    const EACH: u64 = SHAPES * SIGNS;
    let call = Call::VorlaufCheck;
    Row::new(call, ABOUT_0, u64::from(DAYS) * EACH, move |place| {
        let random = &mut numbers(call, seed, place);
        let shaped = on((place / EACH) as u32).with_code((place / SIGNS % SHAPES) as u8);
        with_margin(few(shaped, random), about_0(place, random))
    })
}

/// Every date with any shape that the call asks, the signs in turn.
fn every_date(call: Call, seed: u64) -> Row {
    Row::new(call, ABOUT_0, DAYS.into(), move |place| {
        about_0_on(place as u32, call, place, &mut numbers(call, seed, place))
    })
}

/// Other questions of that kind; `check` is asked whether the margin is the right one.
fn by_the_checks(seed: u64) -> Row {
    Row {
        what: "every date, by the checks around",
        expected: original::expected_of_the_checks,
        ..every_date(Call::VorlaufCheck, !seed)
    }
}

fn numbers(call: Call, seed: u64, place: u64) -> Random {
    const ROW: u64 = 7 << 32;
    Random::at(seed, ROW + u64::from(call.number()), place)
}

/// A question of the call with a margin about 0 of this sign. Its anchor is the day of the index; with
/// `EarliestWerktageAfter` its transmission is.
pub(super) fn about_0_on(index: u32, call: Call, sign: u64, random: &mut Random) -> Question {
    let question = with_margin(of_any_shape(call, index, random), about_0(sign, random));
    put_to(call, question, random)
}

fn about_0(sign: u64, random: &mut Random) -> i32 {
    let by = 1 + random.below(5) as i32;
    [-by, 0, by][(sign % SIGNS) as usize]
}

/// Every date with any shape whose count leads to the edge, and with one more; with a margin about 0,
/// and with any.
fn to_the_edge(seed: u64) -> Row {
    const EACH: u64 = 4;
    const ROW: u64 = 8 << 32;
    let (call, what) = (Call::VorlaufCheck, "every date, to the edge and past it");
    Row::new(call, what, u64::from(DAYS) * EACH, move |place| {
        let (index, random) = ((place / EACH) as u32, &mut Random::at(seed, ROW, place));
        let shaped = of_any_shape(call, index, random);
        let edged = counted(shaped, index, random, |left, _| left + (place % 2) as u32);
        match place % EACH / 2 {
            0 => with_margin(edged, about_0(random.number(), random)),
            _ => with_other(edged, years::any_day(random)),
        }
    })
}

/// Both edges, each with each, all shapes with the counts 0 and 1.
fn from_edge_to_edge() -> Row {
    const COUNTS: u64 = 2;
    let edges = [Date::FIRST, Date::LAST];
    let (call, each) = (Call::VorlaufCheck, SHAPES * COUNTS * COUNTS);
    Row::new(call, "from edge to edge", 4 * each, move |place| {
        let [date, anchor] = [place / each % 2, place / each / 2].map(|edge| edges[edge as usize]);
        let [n, n2] = [place % COUNTS, place / COUNTS % COUNTS].map(|n| n as u32);
        let code = (place / COUNTS / COUNTS % SHAPES) as u8;
        let question = Question::on(call, date).with_second(anchor).with_code(code);
        question.with_count(n).with_second_count(n2)
    })
}

/// Any two dates; one shape in two has a count as far as the calendar goes.
pub(super) fn far_off(call: Call, random: &mut Random) -> Question {
    let index = years::any_day(random);
    let question = of_any_shape(call, index, random);
    let question = match random.below(2) {
        0 if call != Call::AbmeldungCheck => {
            counted(question, index, random, |left, random| random.below(left + 1))
        }
        _ => question,
    };
    put_to(call, with_other(question, years::any_day(random)), random)
}

/// Each shape with the margins -1, 0 and 1 for Monday, 12 January 2026, case E first; a window that has
/// closed before it opens, on days before both, between them and after; margins from edge to edge.
#[must_use]
pub fn of_note() -> Vec<Question> {
    use VorlaufShape::{
        EarliestWerktageAfter, Korridor, LatestMonateBefore, LatestMonateUndWerktageBefore,
        LatestWerktageAfter, LatestWerktageBefore, TagVorDemLetztenWerktagVor,
        WindowWerktageBefore,
    };
    let monday = days::index(date!(2026 - 01 - 12));
    let shapes = [
        LatestWerktageBefore(1),
        WindowWerktageBefore { earliest: 2, latest: 1 },
        LatestWerktageAfter(1),
        EarliestWerktageAfter(1),
        Korridor(1),
        TagVorDemLetztenWerktagVor,
        LatestMonateBefore(1),
        LatestMonateUndWerktageBefore { monate: 1, werktage: 1 },
    ];
    let about_0 =
        |shape| [-1, 0, 1].map(|margin| with_margin(on(monday).with_shape(shape), margin));
    let closed = on(monday).with_shape(WindowWerktageBefore { earliest: 1, latest: 3 });
    let closed = [1, 0, -1, -2].map(|margin| with_margin(closed, margin));
    let from_edge_to_edge = [LatestWerktageBefore(0), LatestMonateBefore(0)].map(|shape| {
        let first = on(0).with_shape(shape);
        [first.with_second(Date::LAST), Question { date: Date::LAST, ..first }]
    });
    let all = shapes.into_iter().flat_map(about_0);
    all.chain(closed).chain(from_edge_to_edge.into_iter().flatten()).collect()
}

/// A verdict with both dates on the day of an index.
fn on(index: u32) -> Question {
    let date = days::date(index);
    Question::on(Call::VorlaufCheck, date).with_second(date)
}

/// The same with any shape that the call asks, of few Werktage or months.
fn of_any_shape(call: Call, index: u32, random: &mut Random) -> Question {
    let question = on(index);
    if call == Call::AbmeldungCheck {
        return question.with_shape(random.one_of(&abmeldung::SHAPES));
    }
    few(question.with_code(random.below(SHAPES as u32) as u8), random)
}

/// With few Werktage or months for its shape. A window opens before it closes, on the same day, or
/// after. What the shape does not have is anything.
fn few(question: Question, random: &mut Random) -> Question {
    let [n, other] = [(); 2].map(|()| random.one_of(&[0, 1, 1, 1, 2, 3]));
    let earliest = random.one_of(&[n + 1, n, other]);
    let months = random.one_of(&[0, 1, 1, 2, 3, 6, 12, 13]);
    let question = question.with_count(months).with_second_count(random.number() as u32);
    years::with_werktage(question, n, earliest)
}

/// With a count for its shape, from the Werktage or months that are left from the day of an index to
/// the edge. A window opens by the count that it has, or by the one that closes it.
fn counted(
    question: Question,
    index: u32,
    random: &mut Random,
    count: impl FnOnce(u32, &mut Random) -> u32,
) -> Question {
    let day = days::day(index);
    let back = werktage_before(index);
    let on = werktage_before(DAYS) - werktage_before(index + 1);
    let years = day.year() - days::day(0).year();
    let months = years as u32 * 12 + u32::from(u8::from(day.month())) - 1;
    match question.code {
        WINDOW => {
            let latest = count(back, random);
            let earliest = random.one_of(&[question.n, latest]);
            question.with_count(earliest).with_second_count(latest)
        }
        LATEST_AFTER | EARLIEST_AFTER => question.with_count(count(on, random)),
        KORRIDOR => question.with_count(count(back.min(on), random)),
        MONATE => question.with_count(count(months, random)),
        MONATE_UND_WERKTAGE => {
            let monate = random.below(months + 1);
            let shifted = days::index(mako_fristen::subtract_months(day, monate));
            let werktage = count(werktage_before(shifted), random);
            question.with_count(monate).with_second_count(werktage)
        }
        _ => question.with_count(count(back, random)),
    }
}

/// With the day of an index for the transmission; with `EarliestWerktageAfter`, which steps from there,
/// for the anchor.
fn with_other(question: Question, index: u32) -> Question {
    let date = days::date(index);
    match question.code {
        EARLIEST_AFTER => question.with_second(date),
        _ => Question { date, ..question },
    }
}

/// With this date moved so that the margin is this, as far as the calendar goes. Where the shape steps
/// out of it, the question is left as it is.
fn with_margin(question: Question, margin: i32) -> Question {
    let answer = original::expected_by_list(&with_other(question, 0));
    let answer = answer.unwrap_or_else(|panic| panic!("{panic}"));
    if answer.number() != 0 {
        return question;
    }
    let by = original::margin(&answer) - margin;
    let index = if question.code == EARLIEST_AFTER { -by } else { by };
    with_other(question, 0_u32.saturating_add_signed(index))
}

/// The verdict as a question of the call.
fn put_to(call: Call, question: Question, random: &mut Random) -> Question {
    let Question { code, date, date2, .. } = question;
    match call {
        Call::VorlaufCheckAt => {
            let [day, anchor] = [date, date2].map(|date| days::given(date).expect("a date"));
            let instant = match random.below(4) {
                0 => to_host(mako_fristen::berlin_midnight(day)),
                1 => to_host(mako_fristen::end_of_day_berlin(day)),
                _ => years::instant_of(days::index(day), random),
            };
            vorlauf::begun_at(instant, &question, days::index(anchor), random)
        }
        Call::AbmeldungCheck => {
            let eeg = if code == MONATE { Eeg::Yes } else { Eeg::No };
            let reason = Reason::new(b"Z33").expect("three bytes");
            Question::on(call, date).with_second(date2).with_reason(reason).with_code(eeg.code())
        }
        _ => question,
    }
}

#[cfg(test)]
mod tests {
    use super::{rows, ABOUT_0, SIGNS};
    use crate::days::{self, DAYS};
    use crate::original;
    use crate::rows::vorlauf::{EARLIEST_AFTER, TAG_VOR_DEM_LETZTEN_WERKTAG};
    use crate::rows::Row;
    use mako_fristen_host::{Answer, Call, Date, Question};
    use std::collections::HashSet;

    fn row(call: Call, what: &str) -> Row {
        let found = rows(1, 2_000_000).into_iter().find(|row| row.call == call && row.what == what);
        found.expect("a row")
    }

    fn asked(row: &Row, place: u64) -> (Question, Answer) {
        let question = (row.probe)(place).question;
        (question, original::expected_by_list(&question).expect("no unknown panic"))
    }

    /// But for some by the edges, whose day would lie outside.
    #[test]
    fn margins_about_0_are_of_every_sign_and_shape() {
        for (call, shapes, step) in [(Call::VorlaufCheck, 8, 29), (Call::AbmeldungCheck, 2, 1)] {
            let row = row(call, ABOUT_0);
            let (mut met, mut others) = (HashSet::new(), 0);
            for place in (0..row.len).step_by(step) {
                let (question, answer) = asked(&row, place);
                let margin = original::margin(&answer);
                let sign = [-1, 0, 1][(place % SIGNS) as usize];
                if answer.number() == 0 && margin.signum() == sign {
                    met.insert((question.code, margin));
                } else {
                    others += 1;
                }
            }
            assert!(others < row.len / 10_000, "{}: {others} of {}", call.name(), row.len);
            assert_eq!(met.len(), shapes * 11, "{}: {met:?}", call.name());
        }
    }

    #[test]
    fn last_permitted_days_go_to_both_edges_and_past_them() {
        let row = row(Call::VorlaufCheck, "every date, to the edge and past it");
        let (mut lasts, mut past) = (HashSet::new(), 0);
        for place in 0..row.len {
            let (question, answer) = asked(&row, place);
            let tag = question.code == TAG_VOR_DEM_LETZTEN_WERKTAG;
            if answer.number() == 0 {
                assert!(place % 2 == 0 || tag, "{question}");
                lasts.insert((question.code, last(&question, &answer)));
            } else {
                assert_eq!(answer.number(), 8, "{question}");
                past += u32::from(!tag);
            }
        }
        let (first, end) = (0, DAYS - 1);
        // The first Werktag and the last lie beside the edges.
        let edges = [(0, 1), (1, 1), (2, end - 1), (3, end - 1), (4, end - 1), (6, first), (7, 1)];
        assert!(edges.iter().all(|edge| lasts.contains(edge)), "{edges:?}");
        assert!(past > DAYS, "{past}");
    }

    /// The index of the last permitted day; of the earliest date, where the anchor has a margin.
    fn last(question: &Question, answer: &Answer) -> u32 {
        let margin = original::margin(answer);
        let index = |date: Date| days::index(days::given(date).expect("a date"));
        match question.code {
            EARLIEST_AFTER => index(question.date2).checked_add_signed(-margin),
            _ => index(question.date).checked_add_signed(margin),
        }
        .expect("a day of the calendar")
    }

    #[test]
    fn far_margins_go_through_the_calendar_both_ways() {
        for row in rows(1, 2_000_000).iter().filter(|row| row.what == "random, far margins") {
            let answers = (0..row.len).map(|place| asked(row, place).1);
            let margins: Vec<i32> = answers
                .filter(|answer| answer.number() == 0)
                .map(|answer| original::margin(&answer))
                .collect();
            let far = |sign: i32| margins.iter().filter(|&margin| margin * sign > 300_000).count();
            let name = row.call.name();
            assert!(far(1) > 100 && far(-1) > 100, "{name}: {}, {}", far(1), far(-1));
        }
        let row = row(Call::VorlaufCheck, "from edge to edge");
        let margins: HashSet<i32> =
            (0..row.len).map(|place| original::margin(&asked(&row, place).1)).collect();
        assert!([-330_179, 0, 330_179].iter().all(|margin| margins.contains(margin)));
    }
}
