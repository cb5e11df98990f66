//! Steps and counts through years: by the ends of years, over one, ten and hundreds of them, to both
//! edges of the calendar and past them. The original walks from day to day; where that would take
//! long, the answers come from the list of Werktage.

use super::{abmeldung, any, instants, kalender, vorlauf, Row};
use crate::days::{self, DAYS};
use crate::instants::{moved, to_host};
use crate::original::{self, werktag, werktage_before};
use crate::random::Random;
use mako_fristen::holidays::easter_sunday;
use mako_fristen_host::{Call, Instant, Question};
use std::array;
use std::collections::BTreeSet;
use std::sync::LazyLock;
use time::Date;

const FIRST_YEAR: i32 = 1996;
const LAST_YEAR: i32 = 2899;
/// A step may begin to go by years at any count up to here, so these are put one by one.
const TURN: u32 = 520;
/// Ten years, in days and about as many Werktage.
const TEN_YEARS: u32 = 3652;
const TEN_YEARS_OF_WERKTAGE: u32 = 2460;
/// Days of note of years so far apart are put each with each,
const NEAR: [usize; 4] = [0, 1, 4, 10];
/// and of these each with one.
const FAR: [usize; 2] = [100, 900];
const SECOND: i64 = 1_000_000_000;

pub fn rows(seed: u64, random: u64) -> Vec<Row> {
    let mut rows = vec![counts_of_every_date(seed), counts_by_days_of_note()];
    for call in [Call::AddWerktage, Call::SubWerktage] {
        rows.extend([every_date(call, seed), whole_years(call)]);
        rows.extend([to_the_ends_of_years(call), to_the_edge(call)]);
    }
    rows.push(spans_of_every_date(seed));
    for call in [Call::AddWerktage, Call::SubWerktage, Call::WerktageBetween] {
        rows.push(Row::random(call, "random, through centuries", random / 400, seed, far));
    }
    for row in &mut rows {
        row.expected = original::expected_by_list;
    }
    let walks = Call::ALL.into_iter().filter(|&call| any::walks(call));
    rows.extend(walks.map(|call| Row {
        expected: original::expected_soon,
        ..Row::random(call, "random, through years", random / 100, seed, question)
    }));
    rows
}

/// A year by indexes.
struct Year {
    first: u32,
    last: u32,
    /// Its first Werktag and its last.
    werktage: [u32; 2],
    /// Its ends and the days beside them, the end of February, days by Easter, the two Werktage.
    of_note: Vec<u32>,
}

impl Year {
    fn new(year: i32) -> Year {
        let (first, last) = (first_of_january(year), first_of_january(year + 1) - 1);
        let places = [werktage_before(first), werktage_before(last + 1) - 1];
        let werktage = places.map(|place| werktag(place).expect("a year has Werktage"));
        let (february, easter) = (first + 58, days::index(easter_sunday(year)));
        let ends = [first, first + 1, february, february + 1, february + 2, last - 1, last];
        let by_easter = [easter - 3, easter - 2, easter, easter + 1, easter + 2];
        let of_note: BTreeSet<u32> = ends.into_iter().chain(by_easter).chain(werktage).collect();
        Year { first, last, werktage, of_note: of_note.into_iter().collect() }
    }

    fn of(index: u32) -> &'static Year {
        &YEARS[(days::day(index).year() - FIRST_YEAR) as usize]
    }

    /// One of the days of note, by any number.
    fn day(&self, number: usize) -> u32 {
        self.of_note[number % self.of_note.len()]
    }
}

/// The indexes of the first and the last day of the year of an index.
pub(super) fn ends(index: u32) -> (u32, u32) {
    let Year { first, last, .. } = *Year::of(index);
    (first, last)
}

static YEARS: LazyLock<Vec<Year>> =
    LazyLock::new(|| (FIRST_YEAR..=LAST_YEAR).map(Year::new).collect());

/// The index, also of the year after the last.
fn first_of_january(year: i32) -> u32 {
    days::index(Date::from_ordinal_date(year, 1).expect("a year"))
}

fn counted(from: u32, to: u32, turned: bool) -> Question {
    let (from, to) = if turned { (to, from) } else { (from, to) };
    Question::on(Call::WerktageBetween, days::date(from)).with_second(days::date(to))
}

/// Every date with itself and the next, with the ends of its year and of those beside it, and with a
/// day of ten years before or after; each in both orders.
fn counts_of_every_date(seed: u64) -> Row {
    const EACH: u64 = 14;
    let (call, what) = (Call::WerktageBetween, "every date, by the ends of years");
    Row::new(call, what, u64::from(DAYS) * EACH, move |place| {
        let index = (place / EACH) as u32;
        let Year { first, last, .. } = *Year::of(index);
        let other = match place % EACH / 2 {
            0 => index,
            1 => index + 1,
            2 => first,
            3 => last,
            4 => first.saturating_sub(1),
            5 => last + 1,
            _ => any::around(index, TEN_YEARS, &mut Random::at(seed, EACH, place)),
        };
        counted(index, other.min(DAYS - 1), place % 2 == 1)
    })
}

/// Days of note with those of other years, and with both edges; in both orders.
fn counts_by_days_of_note() -> Row {
    let mut pairs = Vec::new();
    for (number, year) in YEARS.iter().enumerate() {
        let later = |years: &usize| YEARS.get(number + years);
        for other in NEAR.iter().filter_map(later) {
            let with_others = |&day: &u32| other.of_note.iter().map(move |&other| (day, other));
            pairs.extend(year.of_note.iter().flat_map(with_others));
        }
        for other in FAR.iter().filter_map(later) {
            let others = (number..).map(|number| other.day(number));
            pairs.extend(year.of_note.iter().copied().zip(others));
        }
        pairs.extend([(0, year.day(number)), (year.day(number), DAYS - 1)]);
    }
    let (call, what) = (Call::WerktageBetween, "the days of note of every year");
    Row::new(call, what, 2 * pairs.len() as u64, move |place| {
        let (from, to) = pairs[place as usize / 2];
        counted(from, to, place % 2 == 1)
    })
}

/// Every date with two of the counts up to the turn.
fn every_date(call: Call, seed: u64) -> Row {
    const EACH: u64 = 2;
    Row::new(call, "every date, some of 0 to 520", u64::from(DAYS) * EACH, move |place| {
        let n = Random::at(seed, u64::from(call.number()), place).below(TURN + 1);
        Question::on(call, days::date((place / EACH) as u32)).with_count(n)
    })
}

/// Every date of some years, leap years and others and both edges, with every count up to the turn.
fn whole_years(call: Call) -> Row {
    const COUNTS: u64 = TURN as u64 + 1;
    let of_year = |year| first_of_january(year)..first_of_january(year + 1);
    let years = [FIRST_YEAR, 2000, 2026, 2100, LAST_YEAR];
    let dates: Vec<u32> = years.into_iter().flat_map(of_year).collect();
    Row::new(call, "every date of 5 years, 0 to 520", dates.len() as u64 * COUNTS, move |place| {
        let date = days::date(dates[(place / COUNTS) as usize]);
        Question::on(call, date).with_count((place % COUNTS) as u32)
    })
}

/// From days of note to the first and the last Werktag of other years, and to the last Werktag before
/// the edge; one less and one more, and the largest counts.
fn to_the_ends_of_years(call: Call) -> Row {
    let by_one = |from: u32, end: u32| {
        let n = werktage_to(end, from, call);
        [n.saturating_sub(1), n, n + 1].map(|n| (from, n))
    };
    let mut steps = Vec::new();
    for (number, year) in YEARS.iter().enumerate() {
        let other = |years: &usize| match call {
            Call::SubWerktage => YEARS.get(number.checked_sub(*years)?),
            _ => YEARS.get(number + years),
        };
        let near = NEAR.iter().filter_map(other).flat_map(|other| other.werktage);
        let from_each = |end| year.of_note.iter().flat_map(move |&from| by_one(from, end));
        steps.extend(near.flat_map(from_each));
        let far = FAR.iter().filter_map(other).flat_map(|other| other.werktage);
        let from = year.day(number);
        steps.extend(far.chain([edge(call)]).flat_map(|end| by_one(from, end)));
        steps.push((from, [i32::MAX as u32, 1 << 31, u32::MAX][number % 3]));
    }
    Row::new(call, "to the ends of every year", steps.len() as u64, move |place| {
        let (from, n) = steps[place as usize];
        Question::on(call, days::date(from)).with_count(n)
    })
}

/// Every date to the last Werktag before the edge, and past it.
fn to_the_edge(call: Call) -> Row {
    Row::new(call, "every date, to the edge and past it", 2 * u64::from(DAYS), move |place| {
        let from = (place / 2) as u32;
        let n = werktage_to(edge(call), from, call) + (place % 2) as u32;
        Question::on(call, days::date(from)).with_count(n)
    })
}

/// The index of the day at which the call leaves the calendar.
fn edge(call: Call) -> u32 {
    if call == Call::SubWerktage {
        0
    } else {
        DAYS - 1
    }
}

/// The Werktage of a step up to the day; 0 if the call steps the other way.
fn werktage_to(end: u32, from: u32, call: Call) -> u32 {
    if call == Call::SubWerktage {
        werktage_before(from).saturating_sub(werktage_before(end))
    } else {
        werktage_before(end + 1).saturating_sub(werktage_before(from + 1))
    }
}

/// Every date with a shape whose Werktage go up to the turn.
fn spans_of_every_date(seed: u64) -> Row {
    let call = Call::VorlaufSpan;
    Row::new(call, "every date, some of 0 to 520", DAYS.into(), move |place| {
        let random = &mut Random::at(seed, u64::from(TURN), place);
        let question = Question::on(call, days::date(place as u32));
        let [n, n2] = array::from_fn(|_| random.below(TURN + 1));
        with_werktage(vorlauf::any_shape(question, random), n, n2)
    })
}

/// The shape of a question with these Werktage; a window has both.
pub(super) fn with_werktage(question: Question, n: u32, n2: u32) -> Question {
    match question.code {
        vorlauf::WINDOW => question.with_count(n2).with_second_count(n),
        vorlauf::MONATE_UND_WERKTAGE => question.with_second_count(n),
        vorlauf::TAG_VOR_DEM_LETZTEN_WERKTAG | vorlauf::MONATE => question,
        _ => question.with_count(n),
    }
}

/// A step or a count over any distance.
fn far(call: Call, random: &mut Random) -> Question {
    let index = any_day(random);
    if call == Call::WerktageBetween {
        return counted(index, any_day(random), false);
    }
    Question::on(call, days::date(index)).with_count(far_count(index, call, random))
}

/// A question of a call that steps over Werktage or counts them.
pub(crate) fn question(call: Call, random: &mut Random) -> Question {
    let index = any_day(random);
    let question = Question::on(call, days::date(index));
    match call {
        Call::AddWerktage | Call::SubWerktage => question.with_count(count(index, call, random)),
        Call::WerktageBetween => {
            let other = other_day(index, random);
            counted(index, other, random.below(2) == 0)
        }
        Call::VorlaufSpan => shaped(question, index, random),
        Call::VorlaufCheck | Call::VorlaufCheckAt => {
            let question = shaped(question, index, random);
            let anchor = match random.below(2) {
                0 => other_day(index, random),
                _ => vorlauf::any_anchor(&question, random),
            };
            if call == Call::VorlaufCheck {
                question.with_second(days::date(anchor))
            } else {
                vorlauf::begun_at(instant_of(index, random), &question, anchor, random)
            }
        }
        Call::AbmeldungCheck => {
            let other = other_day(index, random);
            abmeldung::check_on(question, random).with_second(days::date(other))
        }
        _ => {
            let question = instants::filled(call, instant_of(index, random), random);
            let n = count(index, Call::AddWerktage, random);
            // Of the due shapes the first two have a count.
            question.with_code(question.code % 2).with_count(n)
        }
    }
}

/// The index of a day; half are days of note.
pub(super) fn any_day(random: &mut Random) -> u32 {
    match random.below(2) {
        0 => day_of_note(random.below(DAYS), random),
        _ => kalender::any_index(random),
    }
}

/// The index of a day of note of the year of an index.
fn day_of_note(index: u32, random: &mut Random) -> u32 {
    Year::of(index).day(random.below(1 << 16) as usize)
}

/// The index of another day, most of them of ten years before or after; one in eight is any.
pub(super) fn other_day(index: u32, random: &mut Random) -> u32 {
    let near = any::around(index, TEN_YEARS, random);
    match random.below(8) {
        0 => any_day(random),
        1..4 => near,
        _ => day_of_note(near, random),
    }
}

pub(super) fn instant_of(index: u32, random: &mut Random) -> Instant {
    let midnight = to_host(mako_fristen::berlin_midnight(days::day(index)));
    moved(midnight, i64::from(random.below(23 * 3600)) * SECOND)
}

/// Werktage to step from a day: up to the turn, through ten years, to an end of one of these; one in
/// sixteen is far.
fn count(index: u32, call: Call, random: &mut Random) -> u32 {
    match random.below(16) {
        0 => far_count(index, call, random),
        1..4 => random.below(TEN_YEARS_OF_WERKTAGE),
        4..8 => {
            let by = random.below(TEN_YEARS).min(edge(call).abs_diff(index));
            let near = if call == Call::SubWerktage { index - by } else { index + by };
            to_an_end_of_year(near, index, call, random)
        }
        _ => random.below(TURN + 1),
    }
}

/// Werktage as far as the calendar goes, to an end of any year, to the edge, and past it.
fn far_count(index: u32, call: Call, random: &mut Random) -> u32 {
    match random.below(4) {
        0 => random.below(222_040),
        1 => kalender::large_count(random),
        2 => to_an_end_of_year(edge(call), index, call, random),
        _ => {
            let any = random.below(DAYS);
            to_an_end_of_year(any, index, call, random)
        }
    }
}

/// Werktage to an end of the year of a day, one less or one more.
fn to_an_end_of_year(day: u32, index: u32, call: Call, random: &mut Random) -> u32 {
    let end = random.one_of(&Year::of(day).werktage);
    (werktage_to(end, index, call) + random.below(3)).saturating_sub(1)
}

/// With a shape whose Werktage go through years.
fn shaped(question: Question, index: u32, random: &mut Random) -> Question {
    let question = vorlauf::any_shape(question, random);
    let back = matches!(question.code, vorlauf::LATEST_AFTER | vorlauf::KORRIDOR);
    let call = if back { Call::SubWerktage } else { Call::AddWerktage };
    let [n, n2] = array::from_fn(|_| count(index, call, random));
    let more = n.saturating_add(random.below(71));
    with_werktage(question, n, random.one_of(&[n2, more]))
}

#[cfg(test)]
mod tests {
    use super::{question, rows, YEARS};
    use crate::days::{self, DAYS};
    use crate::original::expected_by_list;
    use crate::random::Random;
    use crate::rows::{any, Row};
    use crate::walk::is_far;
    use mako_fristen_host::{Answer, Call, Date, Question};
    use std::collections::HashSet;

    fn row(call: Call, what: &str) -> Row {
        let found = rows(1, 2_000_000).into_iter().find(|row| row.call == call && row.what == what);
        found.expect("a row")
    }

    fn questions(row: &Row) -> impl Iterator<Item = Question> + '_ {
        (0..row.len).map(|place| (row.probe)(place).question)
    }

    fn answer(question: &Question) -> Answer {
        expected_by_list(question).expect("no unknown panic")
    }

    /// On, and back: on its first Werktag and its last, from the same year and from others.
    #[test]
    fn steps_end_on_both_ends_of_every_year() {
        for call in [Call::AddWerktage, Call::SubWerktage] {
            let row = row(call, "to the ends of every year");
            let mut met = HashSet::new();
            for question in questions(&row) {
                let answer = answer(&question);
                let end = answer.date();
                met.insert((end, question.date.year.abs_diff(end.year).min(1)));
                assert!(answer.number() == 0 || answer.number() == 8, "{question}");
            }
            assert!(met.contains(&(Date::default(), 1)), "none leaves the calendar");
            for end in YEARS[1..903].iter().flat_map(|year| year.werktage) {
                let end = days::date(end);
                assert!(
                    met.contains(&(end, 0)) && met.contains(&(end, 1)),
                    "{} {end}",
                    call.name()
                );
            }
        }
    }

    #[test]
    fn counts_are_over_all_distances_and_by_both_edges() {
        let row = row(Call::WerktageBetween, "the days of note of every year");
        let mut met = HashSet::new();
        for Question { date, date2, .. } in questions(&row) {
            met.insert(i32::from(date2.year) - i32::from(date.year));
        }
        assert!([1, 4, 10, 100, 900]
            .iter()
            .all(|years| met.contains(years) && met.contains(&-years)));
        assert!((-903..=903).all(|years| met.contains(&years)), "with both edges every distance");
    }

    #[test]
    fn every_date_is_the_first_and_the_second_of_a_count() {
        let row = row(Call::WerktageBetween, "every date, by the ends of years");
        let (mut first, mut second) = (HashSet::new(), HashSet::new());
        for Question { date, date2, .. } in questions(&row) {
            if days::given(date) < days::given(date2) {
                first.insert(date);
                second.insert(date2);
            }
        }
        assert_eq!([first.len(), second.len()], [DAYS as usize - 1; 2]);
    }

    #[test]
    fn questions_of_every_call_go_near_far_and_past_the_edge() {
        for call in Call::ALL.into_iter().filter(|&call| any::walks(call)) {
            let random = |place| Random::at(1, u64::from(call.number()), place);
            let questions: Vec<_> = (0..1000).map(|p| question(call, &mut random(p))).collect();
            let far = questions.iter().filter(|question| is_far(question)).count();
            assert!((20..600).contains(&far), "{}: {far}", call.name());
            let refused = questions.iter().filter(|question| answer(question).number() == 8);
            let steps = any::steps(call);
            assert!(refused.count() > 0 || !steps, "{}", call.name());
        }
    }
}
