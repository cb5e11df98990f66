//! The Werktage of the calendar in a list, made once by the original's own day test: its steps and
//! counts without its walk.

use crate::days::{self, DAYS};
use mako_fristen::HolidayCalendar::BdewMaKo;
use mako_fristen_host::Refusal;
use std::sync::LazyLock;
use time::Date;

/// Their indexes.
static WERKTAGE: LazyLock<Vec<u32>> = LazyLock::new(|| {
    (0..DAYS).filter(|&index| mako_fristen::is_werktag(days::day(index), BdewMaKo)).collect()
});

/// How many Werktage come before the day of an index.
#[must_use]
pub fn werktage_before(index: u32) -> u32 {
    WERKTAGE.partition_point(|&werktag| werktag < index) as u32
}

/// The index of a Werktag by its place in the list, from 0.
#[must_use]
pub fn werktag(place: u32) -> Option<u32> {
    WERKTAGE.get(place as usize).copied()
}

/// The n-th Werktag after the day; the day itself for 0.
pub(super) fn on(day: Date, n: u32) -> Result<Date, Refusal> {
    match n {
        0 => Ok(day),
        n => nth(werktage_before(days::index(day) + 1), n),
    }
}

/// The n-th Werktag before the day; the day itself for 0.
pub(super) fn back(day: Date, n: u32) -> Result<Date, Refusal> {
    let place = werktage_before(days::index(day)).checked_sub(n);
    match n {
        0 => Ok(day),
        _ => place.and_then(werktag).map(days::day).ok_or(Refusal::LeavesCalendar),
    }
}

/// The day after the n-th Werktag on or after the day; the day itself for 0.
pub(super) fn after(day: Date, n: u32) -> Result<Date, Refusal> {
    match n {
        0 => Ok(day),
        n => days::after(nth(werktage_before(days::index(day)), n)?),
    }
}

/// How many Werktage come after the one day, up to and with the other.
pub(super) fn between(from: Date, to: Date) -> u32 {
    let [from, to] = [from, to].map(|day| werktage_before(days::index(day) + 1));
    to.saturating_sub(from)
}

/// The n-th Werktag, from 1, after so many.
fn nth(before: u32, n: u32) -> Result<Date, Refusal> {
    let place = (n - 1).checked_add(before);
    place.and_then(werktag).map(days::day).ok_or(Refusal::LeavesCalendar)
}

#[cfg(test)]
mod tests {
    use super::{after, back, between, on, werktag, werktage_before};
    use crate::days::{self, DAYS};
    use crate::original::{expected, expected_both_ways, expected_by_list};
    use crate::random::Random;
    use crate::rows::{any, years};
    use crate::walk::is_far;
    use mako_fristen_host::{Call, Date, Question, Refusal};
    use time::macros::date;

    #[test]
    fn places_and_days_fit() {
        assert_eq!((werktage_before(0), werktage_before(DAYS)), (0, 222_031));
        assert_eq!((werktag(0), werktag(222_031)), (Some(1), None));
        for place in (0..222_031).step_by(1000) {
            assert_eq!(werktag(place).map(werktage_before), Some(place));
        }
    }

    /// Maundy Thursday to the Tuesday after Easter, the only two Werktage of six days.
    #[test]
    fn steps_and_counts_about_easter() {
        let (thursday, good_friday, tuesday) =
            (date!(2026 - 04 - 02), date!(2026 - 04 - 03), date!(2026 - 04 - 07));
        assert_eq!((on(thursday, 0), on(thursday, 1)), (Ok(thursday), Ok(tuesday)));
        assert_eq!((back(tuesday, 1), back(good_friday, 1)), (Ok(thursday), Ok(thursday)));
        assert_eq!((back(good_friday, 0), on(good_friday, 1)), (Ok(good_friday), Ok(tuesday)));
        assert_eq!((after(thursday, 0), after(thursday, 1)), (Ok(thursday), Ok(good_friday)));
        assert_eq!(after(good_friday, 1), Ok(date!(2026 - 04 - 08)));
        assert_eq!((between(thursday, tuesday), between(tuesday, thursday)), (1, 0));
    }

    #[test]
    fn what_leaves_the_calendar_is_refused() {
        let (first, last) = (days::day(0), days::day(DAYS - 1));
        for n in [1, 222_032, 1 << 31, u32::MAX] {
            let left = Err(Refusal::LeavesCalendar);
            assert_eq!([on(last, n), back(first, n), after(last, n)], [left; 3], "{n}");
        }
        assert_eq!(between(first, last), 222_031);
        assert_eq!(on(first, 222_031).map(|day| werktage_before(days::index(day))), Ok(222_030));
    }

    /// Wherever the original does not walk far, for all calls.
    #[test]
    fn the_list_leads_where_the_walk_leads() {
        const EACH: u64 = 200;
        for call in Call::ALL {
            let row = u64::from(call.number());
            let any = (0..EACH).map(|place| any::question(call, &mut Random::at(1, row, place)));
            let years =
                (0..EACH).map(|place| years::question(call, &mut Random::at(2, row, place)));
            let years = years.take_while(|_| any::walks(call));
            for question in any.chain(years).filter(|question| !is_far(question)) {
                let walked = expected(&question).expect("no unknown panic");
                assert_eq!(expected_by_list(&question), Ok(walked), "{question}");
            }
        }
    }

    /// From edge to edge, and one more.
    #[test]
    fn it_does_so_over_all_years() {
        let (on, back) = (Call::AddWerktage, Call::SubWerktage);
        let steps =
            [(on, Date::FIRST, 222_031), (on, Date::FIRST, 222_032), (back, Date::LAST, 222_031)];
        let steps = steps.map(|(call, date, n)| Question::on(call, date).with_count(n));
        let count = Question::on(Call::WerktageBetween, Date::FIRST).with_second(Date::LAST);
        for question in steps.into_iter().chain([count]) {
            assert_eq!(expected_both_ways(&question), expected(&question), "{question}");
        }
    }
}
