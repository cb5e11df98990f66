//! Counts and steps read whole years from a table (document 02, F-3). Here they are held against a
//! walk by the day test: at each 1 January, for which the table has an entry, and all over the
//! calendar.

use mako_fristen_host::{
    add_werktage, is_werktag, sub_werktage, werktage_between, Date, Error, Refusal, WerktageBetween,
};
use std::sync::LazyLock;

const DAYS: usize = 330_180;

/// More than there are Werktage.
const STEPS: usize = 222_100;

/// The calendar, walked once. A day is its place from 1 January 1996, which has 0.
static WALK: LazyLock<Walk> = LazyLock::new(Walk::new);

struct Walk {
    days: Vec<Date>,
    werktage: Vec<Date>,
    /// How many Werktage lie before a day.
    before: Vec<usize>,
}

impl Walk {
    fn new() -> Walk {
        let next = |day: &Date| day.plus_days(1);
        let days: Vec<Date> = std::iter::successors(Some(Date::FIRST), next)
            .take_while(|d| *d <= Date::LAST)
            .collect();
        let mut werktage = Vec::new();
        let mut before = Vec::new();
        for day in &days {
            before.push(werktage.len());
            if is_werktag(*day) == Ok(true) {
                werktage.push(*day);
            }
        }
        Walk { days, werktage, before }
    }

    /// How many Werktage there are up to and including a day.
    fn upto(&self, day: usize) -> usize {
        self.before.get(day + 1).copied().unwrap_or(self.werktage.len())
    }

    /// 1 for 1 January.
    fn day_of_year(&self, day: usize) -> usize {
        let year = self.days[day].year;
        self.days[..=day].iter().rev().take_while(|date| date.year == year).count()
    }

    fn between(&self, from: usize, to: usize) -> Result<WerktageBetween, Error> {
        let (werktage, days_tested) = match from < to {
            true => {
                (self.upto(to) - self.upto(from), self.day_of_year(from) + self.day_of_year(to))
            }
            false => (0, 0),
        };
        Ok(WerktageBetween { werktage: werktage as u32, days_tested: days_tested as u32 })
    }

    /// The Werktag of this number, the first of the calendar being 0.
    fn werktag(&self, number: Option<usize>) -> Result<Date, Error> {
        let werktag = number.and_then(|number| self.werktage.get(number)).copied();
        Ok(werktag.ok_or(Refusal::LeavesCalendar)?)
    }

    fn add(&self, day: usize, n: usize) -> Result<Date, Error> {
        match n {
            0 => Ok(self.days[day]),
            _ => self.werktag(Some(self.upto(day) + n - 1)),
        }
    }

    fn sub(&self, day: usize, n: usize) -> Result<Date, Error> {
        match n {
            0 => Ok(self.days[day]),
            _ => self.werktag(self.before[day].checked_sub(n)),
        }
    }

    fn assert_counts(&self, from: usize, to: usize) {
        let (first, second) = (self.days[from], self.days[to]);
        let between = werktage_between(first, second);
        assert_eq!(between, self.between(from, to), "{first} {second}");
    }

    fn assert_steps(&self, day: usize, n: usize) {
        let (from, count) = (self.days[day], n as u32);
        assert_eq!(add_werktage(from, count), self.add(day, n), "{from} plus {n}");
        assert_eq!(sub_werktage(from, count), self.sub(day, n), "{from} minus {n}");
    }

    /// The 1 January of every year.
    fn first_of_years(&self) -> impl Iterator<Item = usize> + '_ {
        let first = |day: &usize| (self.days[*day].month, self.days[*day].day) == (1, 1);
        (0..DAYS).filter(first)
    }
}

#[test]
fn the_walk_has_every_day_and_every_werktag() {
    assert_eq!((WALK.days.len(), WALK.days[DAYS - 1]), (DAYS, Date::LAST));
    assert!(WALK.werktage.len() < STEPS);
    assert_eq!(WALK.first_of_years().count(), 904);
    let days = [(0, 1), (365, 366), (366, 1), (DAYS - 1, 365)];
    assert!(days.iter().all(|(day, of_year)| WALK.day_of_year(*day) == *of_year));
}

/// An entry of the table is what a count up to its day gives, and one from it leaves out.
#[test]
fn counts_to_and_from_each_1_january() {
    for day in WALK.first_of_years() {
        WALK.assert_counts(0, day);
        WALK.assert_counts(day, DAYS - 1);
    }
}

/// The last Werktag before a 1 January and the first after it, from either end of the calendar.
#[test]
fn steps_to_either_side_of_each_1_january() {
    for day in WALK.first_of_years() {
        let (earlier, later) = (WALK.before[day], WALK.werktage.len() - WALK.before[day]);
        for n in [earlier, earlier + 1] {
            assert_eq!(add_werktage(Date::FIRST, n as u32), WALK.add(0, n), "{n}");
        }
        for n in [later, later + 1] {
            assert_eq!(sub_werktage(Date::LAST, n as u32), WALK.sub(DAYS - 1, n), "{n}");
        }
    }
}

/// The strides have no divisor in common with the number of days, so that no two pairs are the same.
#[test]
fn counts_between_days_of_any_years() {
    for round in 0..1_000 {
        WALK.assert_counts(round * 104_729 % DAYS, round * 224_737 % DAYS);
    }
}

#[test]
fn steps_from_days_of_any_year_by_any_count() {
    for round in 0..1_000 {
        WALK.assert_steps(round * 104_729 % DAYS, round * 15_487 % STEPS);
    }
}

/// From each day of two years, a leap year first, over the turns of the years about them.
#[test]
fn counts_and_steps_by_a_few_days() {
    let first = WALK.days.iter().position(|day| *day == Date::new(2024, 1, 1)).expect("a date");
    for day in first..first + 366 + 365 {
        for further in [0, 1, 2, 5, 30, 366, 1_000] {
            WALK.assert_counts(day, day + further);
            WALK.assert_counts(day + further, day);
            WALK.assert_steps(day, further);
        }
    }
}
