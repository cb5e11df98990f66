//! Holidays against values from outside: the movable feasts of years over the whole calendar, the
//! Buß- und Bettage, and the whole list of 2025. Every holiday is a literal.

use mako_fristen_host::{is_werktag, werktage_between, Date};

type Day = (u8, u8);

fn closed(year: u16, (month, day): Day) -> bool {
    is_werktag(Date::new(year, month, day)) == Ok(false)
}

/// Easter Sundays. 22 March and 25 April are the earliest and the latest that there can be; 2049
/// and 2076 are years of the two exceptions in Gauss's rule. To 2100, and 2285, they are the well
/// known ones of public tables; 2353 and later are from `easter` of Python's dateutil, which agrees
/// on all. Beside each: Karfreitag, Ostermontag, Himmelfahrt, Pfingstmontag, Fronleichnam, by
/// Python's datetime.
const MOVABLE: [(u16, Day, [Day; 5]); 17] = [
    (1996, (4, 7), [(4, 5), (4, 8), (5, 16), (5, 27), (6, 6)]),
    (2000, (4, 23), [(4, 21), (4, 24), (6, 1), (6, 12), (6, 22)]),
    (2008, (3, 23), [(3, 21), (3, 24), (5, 1), (5, 12), (5, 22)]),
    (2011, (4, 24), [(4, 22), (4, 25), (6, 2), (6, 13), (6, 23)]),
    (2019, (4, 21), [(4, 19), (4, 22), (5, 30), (6, 10), (6, 20)]),
    (2024, (3, 31), [(3, 29), (4, 1), (5, 9), (5, 20), (5, 30)]),
    (2025, (4, 20), [(4, 18), (4, 21), (5, 29), (6, 9), (6, 19)]),
    (2026, (4, 5), [(4, 3), (4, 6), (5, 14), (5, 25), (6, 4)]),
    (2038, (4, 25), [(4, 23), (4, 26), (6, 3), (6, 14), (6, 24)]),
    (2049, (4, 18), [(4, 16), (4, 19), (5, 27), (6, 7), (6, 17)]),
    (2076, (4, 19), [(4, 17), (4, 20), (5, 28), (6, 8), (6, 18)]),
    (2100, (3, 28), [(3, 26), (3, 29), (5, 6), (5, 17), (5, 27)]),
    (2285, (3, 22), [(3, 20), (3, 23), (4, 30), (5, 11), (5, 21)]),
    (2353, (3, 22), [(3, 20), (3, 23), (4, 30), (5, 11), (5, 21)]),
    (2400, (4, 16), [(4, 14), (4, 17), (5, 25), (6, 5), (6, 15)]),
    (2666, (4, 15), [(4, 13), (4, 16), (5, 24), (6, 4), (6, 14)]),
    (2899, (4, 19), [(4, 17), (4, 20), (5, 28), (6, 8), (6, 18)]),
];

/// The fixed holidays from 9 March to the end of June.
const TAG_DER_ARBEIT: Day = (5, 1);

/// From the week of the earliest Karfreitag to the last Fronleichnam, no weekday is closed but the
/// five and the 1 May: so Easter is that Sunday and no other.
#[test]
fn movable_feasts() {
    for (year, easter, feasts) in MOVABLE {
        let weekday_of =
            |day: Day| (day_of_year(year, day) + 7 - day_of_year(year, easter) % 7) % 7;
        for day in days(year).filter(|&day| ((3, 9)..=(6, 30)).contains(&day)) {
            let weekend = matches!(weekday_of(day), 0 | 6);
            let feast = feasts.contains(&day) || day == TAG_DER_ARBEIT;
            assert_eq!(closed(year, day), weekend || feast, "{year} {day:?}");
        }
    }
}

/// Buß- und Bettag, 2019 to 2028 as calendars have it, the others by Python's datetime; 16 and 22
/// November are its earliest and latest day.
#[test]
fn buss_und_bettage() {
    #[rustfmt::skip]
    let bettage = [
        (1996, 20), (2019, 20), (2020, 18), (2021, 17), (2022, 16), (2023, 22), (2024, 20),
        (2025, 19), (2026, 18), (2027, 17), (2028, 22), (2100, 17), (2899, 18),
    ];
    for (year, bettag) in bettage {
        for day in bettag - 2..=bettag + 2 {
            assert_eq!(closed(year, (11, day)), day == bettag, "{day} November {year}");
        }
    }
}

/// The holidays of 2025 in any Bundesland, as calendars have them, with 24 and 31 December (GPKE
/// Teil 1), as far as they are weekdays: 8 March, 20 September and 1 November 2025 are Saturdays.
#[rustfmt::skip]
const CLOSED_WEEKDAYS_2025: [Day; 16] = [
    (1, 1), (1, 6), (4, 18), (4, 21), (5, 1), (5, 29), (6, 9), (6, 19), (8, 15), (10, 3), (10, 31),
    (11, 19), (12, 24), (12, 25), (12, 26), (12, 31),
];

#[test]
fn the_whole_year_2025() {
    // 1 January 2025 was a Wednesday, so 4 January the first Saturday.
    let weekend = |day| matches!(day_of_year(2025, day) % 7, 4 | 5);
    for day in days(2025) {
        let expected = weekend(day) || CLOSED_WEEKDAYS_2025.contains(&day);
        assert_eq!(closed(2025, day), expected, "2025 {day:?}");
    }
    let eve = Date::new(2024, 12, 31);
    let year = werktage_between(eve, Date::new(2025, 12, 31));
    assert_eq!(year.map(|between| between.werktage), Ok(261 - 16));
}

/// The days that only one Bundesland or GPKE Teil 1 closes, in years where they fall on a weekday.
#[test]
fn fixed_days_on_weekdays() {
    #[rustfmt::skip]
    let fixed = [
        (2026, (1, 6)), (2024, (3, 8)), (2024, (8, 15)), (2024, (9, 20)), (2024, (10, 31)),
        (2024, (11, 1)), (2024, (12, 24)), (2024, (12, 31)),
    ];
    for (year, day) in fixed {
        assert!(closed(year, day), "{year} {day:?}");
    }
    // Augsburger Friedensfest is a city's day and stays a Werktag.
    assert!(!closed(2024, (8, 8)));
}

fn month_lengths(year: u16) -> [u8; 12] {
    let leap = year % 4 == 0 && (year % 100 != 0 || year % 400 == 0);
    [31, 28 + u8::from(leap), 31, 30, 31, 30, 31, 31, 30, 31, 30, 31]
}

fn days(year: u16) -> impl Iterator<Item = Day> {
    (1..=12)
        .zip(month_lengths(year))
        .flat_map(|(month, len)| (1..=len).map(move |day| (month, day)))
}

/// 1 for 1 January.
fn day_of_year(year: u16, (month, day): Day) -> u32 {
    let before = month_lengths(year).into_iter().take(usize::from(month) - 1);
    before.map(u32::from).sum::<u32>() + u32::from(day)
}
