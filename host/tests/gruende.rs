//! Why a day is closed: the number and the name of every date against a program of this file, which
//! has the list of document 01, the numbers of document 02 and an Easter of its own, and against
//! values from outside.

use mako_fristen_host::{
    day_reason, ffi, is_werktag, Answer, Call, Date, DayReason, Error, Feiertag, Question, Refusal,
};

/// A number of document 02 and its name.
type Named = (u8, &'static str);

const WERKTAG: Named = (0, "Werktag");
const SAMSTAG: Named = (1, "Samstag");
const SONNTAG: Named = (2, "Sonntag");

/// With month and day.
const FIXED: [(Named, u8, u8); 13] = [
    ((3, "Neujahr"), 1, 1),
    ((4, "Heilige Drei Könige"), 1, 6),
    ((5, "Internationaler Frauentag"), 3, 8),
    ((6, "Tag der Arbeit"), 5, 1),
    ((7, "Mariä Himmelfahrt"), 8, 15),
    ((8, "Weltkindertag"), 9, 20),
    ((9, "Tag der Deutschen Einheit"), 10, 3),
    ((10, "Reformationstag"), 10, 31),
    ((11, "Allerheiligen"), 11, 1),
    ((12, "Heiligabend"), 12, 24),
    ((13, "Erster Weihnachtsfeiertag"), 12, 25),
    ((14, "Zweiter Weihnachtsfeiertag"), 12, 26),
    ((15, "Silvester"), 12, 31),
];

const BUSS_UND_BETTAG: Named = (16, "Buß- und Bettag");

/// With the days after Easter Sunday.
const MOVABLE: [(Named, isize); 6] = [
    ((17, "Karfreitag"), -2),
    ((18, "Ostermontag"), 1),
    ((19, "Christi Himmelfahrt"), 39),
    ((20, "Pfingstsonntag"), 49),
    ((21, "Pfingstmontag"), 50),
    ((22, "Fronleichnam"), 60),
];

/// Month and day of Easter Sunday as Oudin has it (1940), which is not the algorithm of document 01.
fn easter(year: i32) -> (u8, u8) {
    let century = year / 100;
    let golden = year % 19;
    let k = (century - 17) / 25;
    let i = (century - century / 4 - (century - k) / 3 + 19 * golden + 15) % 30;
    let i = i - (i / 28) * (1 - (i / 28) * (29 / (i + 1)) * ((21 - golden) / 11));
    let j = (year + year / 4 + i + 2 - century + century / 4) % 7;
    let month = 3 + (i - j + 40) / 44;
    let day = i - j + 28 - 31 * (month / 4);
    (month as u8, day as u8)
}

/// A date with its weekday, 0 for Monday, and the holidays on it in the order of their numbers.
struct Day {
    date: Date,
    weekday: u8,
    holidays: Vec<Named>,
}

impl Day {
    /// Weekend before holiday, and of two holidays the first.
    fn reason(&self) -> Named {
        match self.weekday {
            5 => SAMSTAG,
            6 => SONNTAG,
            _ => self.holidays.first().copied().unwrap_or(WERKTAG),
        }
    }
}

/// Every date, counted from Monday, 1 January 1996.
fn calendar() -> Vec<Day> {
    let mut days = Vec::new();
    for year in 1996..=2899 {
        let first = days.len();
        let dates = (1..=12).flat_map(|month| (1..=31).map(move |day| Date::new(year, month, day)));
        for date in dates.filter(|date| date.is_in_calendar()) {
            let weekday = (days.len() % 7) as u8;
            let fixed =
                FIXED.iter().filter(|(_, month, day)| (*month, *day) == (date.month, date.day));
            let mut holidays: Vec<Named> = fixed.map(|(named, ..)| *named).collect();
            if date.month == 11 && (16..=22).contains(&date.day) && weekday == 2 {
                holidays.push(BUSS_UND_BETTAG);
            }
            days.push(Day { date, weekday, holidays });
        }
        let (month, day) = easter(year.into());
        let of_year = &mut days[first..];
        let is_easter = |d: &Day| (d.date.month, d.date.day) == (month, day);
        let sunday = of_year.iter().position(is_easter).expect("a date of the year");
        assert_eq!(of_year[sunday].weekday, 6, "{year}: Easter is a Sunday");
        for (named, offset) in MOVABLE {
            of_year[sunday.wrapping_add_signed(offset)].holidays.push(named);
        }
    }
    days
}

fn named(reason: DayReason) -> Named {
    (reason.number(), reason.name())
}

fn holiday(holiday: Feiertag) -> Named {
    (holiday.number(), holiday.name())
}

/// How often each number is given from 1996 to 2899, by a few lines of Python with dateutil's
/// `easter`.
const GIVEN: [usize; 23] = [
    222_031, 47_168, 47_168, 647, 646, 643, 647, 646, 643, 646, 646, 643, 648, 647, 646, 648, 904,
    904, 904, 897, 0, 904, 904,
];

/// The number, the name and the holiday that a weekend hides.
#[test]
fn the_reason_of_every_date() {
    let mut given = [0; 23];
    for day in calendar() {
        let (date, reason) = (day.date, day.reason());
        assert_eq!(day_reason(date).map(named), Ok(reason), "{date}");
        assert_eq!(is_werktag(date), Ok(reason == WERKTAG), "{date}");
        let first = day.holidays.first().copied();
        assert_eq!(Feiertag::on(date).map(|found| found.map(holiday)), Ok(first), "{date}");
        given[usize::from(reason.0)] += 1;
    }
    assert_eq!(given, GIVEN);
}

/// One for each date that has any, by date.
#[test]
fn the_holidays_of_every_year() {
    let days = calendar();
    let mut both = Vec::new();
    for of_year in days.chunk_by(|one, next| one.date.year == next.date.year) {
        let year = of_year[0].date.year;
        let first = |day: &Day| Some((day.date, *day.holidays.first()?));
        let expected: Vec<_> = of_year.iter().filter_map(first).collect();
        let holidays = Feiertag::of_year(year).expect("a year of the calendar");
        let found: Vec<_> = holidays.into_iter().map(|(date, day)| (date, holiday(day))).collect();
        assert_eq!(found, expected, "{year}");
        if found.len() != Feiertag::ALL.len() {
            both.push((year, found.len()));
        }
    }
    // Easter is on 23 March, and Christi Himmelfahrt on 1 May.
    let years = [2008, 2160, 2228, 2380, 2532, 2600, 2752];
    assert_eq!(both, years.map(|year| (year, Feiertag::ALL.len() - 1)));
}

/// As calendars have them, the years after 2100 by Python's datetime and dateutil: the number and
/// the name, and what the day is besides.
#[test]
fn reasons_from_outside() {
    let days = [
        ((2026, 4, 2), 0, "Werktag", None),
        ((2026, 4, 4), 1, "Samstag", None),
        ((2026, 4, 5), 2, "Sonntag", None),
        ((2026, 3, 8), 2, "Sonntag", Some("Internationaler Frauentag")),
        ((2026, 5, 24), 2, "Sonntag", Some("Pfingstsonntag")),
        ((2026, 8, 15), 1, "Samstag", Some("Mariä Himmelfahrt")),
        ((2026, 1, 1), 3, "Neujahr", None),
        ((2026, 1, 6), 4, "Heilige Drei Könige", None),
        ((2024, 3, 8), 5, "Internationaler Frauentag", None),
        ((2026, 5, 1), 6, "Tag der Arbeit", None),
        ((2025, 8, 15), 7, "Mariä Himmelfahrt", None),
        ((2024, 9, 20), 8, "Weltkindertag", None),
        ((2025, 10, 3), 9, "Tag der Deutschen Einheit", None),
        ((2025, 10, 31), 10, "Reformationstag", None),
        ((2024, 11, 1), 11, "Allerheiligen", None),
        ((2026, 12, 24), 12, "Heiligabend", None),
        ((2026, 12, 25), 13, "Erster Weihnachtsfeiertag", None),
        ((2025, 12, 26), 14, "Zweiter Weihnachtsfeiertag", None),
        ((2026, 12, 31), 15, "Silvester", None),
        ((2026, 11, 18), 16, "Buß- und Bettag", None),
        ((2026, 4, 3), 17, "Karfreitag", None),
        ((2026, 4, 6), 18, "Ostermontag", None),
        ((2026, 5, 14), 19, "Christi Himmelfahrt", None),
        ((2026, 5, 25), 21, "Pfingstmontag", None),
        ((2026, 6, 4), 22, "Fronleichnam", None),
        // Christi Himmelfahrt too, whose number is higher.
        ((2008, 5, 1), 6, "Tag der Arbeit", None),
        ((2160, 5, 1), 6, "Tag der Arbeit", None),
        // A leap day, and the days around a fixed one.
        ((2020, 2, 29), 1, "Samstag", None),
        ((2026, 3, 7), 1, "Samstag", None),
        ((2026, 3, 9), 0, "Werktag", None),
        // Karfreitag a year before, and Pfingstmontag a year after.
        ((2026, 4, 18), 1, "Samstag", None),
        ((2025, 5, 25), 2, "Sonntag", None),
        // Weekends of the first and the last year, where a neighbouring year is missing.
        ((1996, 1, 6), 1, "Samstag", Some("Heilige Drei Könige")),
        ((1996, 11, 1), 11, "Allerheiligen", None),
        ((2899, 3, 8), 2, "Sonntag", Some("Internationaler Frauentag")),
        ((2899, 10, 31), 1, "Samstag", Some("Reformationstag")),
        ((2899, 11, 1), 2, "Sonntag", Some("Allerheiligen")),
        ((2899, 12, 31), 15, "Silvester", None),
    ];
    for ((year, month, day), number, name, also) in days {
        let date = Date::new(year, month, day);
        let reason = day_reason(date).expect("a date");
        assert_eq!(named(reason), (number, name), "{date}");
        let besides = Feiertag::on(date).expect("a date").map(Feiertag::name);
        let expected = if number > 2 { Some(name) } else { also };
        assert_eq!(besides, expected, "{date}");
    }
}

/// 20 is Pfingstsonntag's. No date has it, and it can be read: it is a number of the list.
#[test]
fn every_number_from_0_to_22_is_a_reason() {
    let fixed = FIXED.map(|(named, ..)| named);
    let movable = MOVABLE.map(|(named, _)| named);
    let open_and_weekend = [WERKTAG, SAMSTAG, SONNTAG];
    let all = [&open_and_weekend[..], &fixed, &[BUSS_UND_BETTAG], &movable].concat();
    for (number, expected) in (0..).zip(&all) {
        let reason = DayReason::of_number(number).expect("a number of document 02");
        assert_eq!(&named(reason), expected);
        assert_eq!((reason.to_string(), number), (expected.1.to_owned(), expected.0));
        assert_eq!(reason.is_werktag(), number == 0, "{reason}");
        let answer = Answer::default().with_kind(number);
        assert_eq!(answer.read(Call::IsWerktag), Ok(reason));
    }
    assert_eq!(Feiertag::ALL.map(holiday)[..], all[3..]);
    assert!(Feiertag::ALL.iter().all(|day| day.to_string() == day.name()));
    for number in 23..=u8::MAX {
        assert_eq!(DayReason::of_number(number), None);
        let answer = Answer::default().with_kind(number);
        let read = answer.read::<DayReason>(Call::IsWerktag);
        assert!(matches!(read, Err(Error::Unreadable(_))), "{number}");
    }
}

#[test]
fn the_paper_of_the_calls_has_the_numbers() {
    let words: Vec<_> = include_str!("../../docs/host-calls.md").split_whitespace().collect();
    let paper = words.join(" ");
    for holiday in Feiertag::ALL {
        assert!(paper.contains(&format!(" {} {holiday}", holiday.number())), "{holiday}");
    }
}

/// Its kind is 0, as a Werktag's, and nothing takes it for one.
#[test]
fn a_refused_day_is_no_werktag() {
    let refusal = Refusal::NoDate;
    let no_dates = [(1995, 12, 31), (2900, 1, 1), (2026, 2, 29), (2026, 0, 1), (0, 0, 0)];
    for (year, month, day) in no_dates {
        let date = Date::new(year, month, day);
        let mut bytes = [0xa5; Answer::LEN];
        assert_eq!(ffi::mf_is_werktag(year, month, day, &mut bytes), 3, "{date}");
        assert_eq!((bytes[0], bytes[1]), (3, 0), "{date}");
        let read = Answer::from_bytes(bytes).read::<DayReason>(Call::IsWerktag);
        assert_eq!(read, Err(refusal.into()), "{date}");
        assert_eq!(Question::on(Call::IsWerktag, date).answer(), Err(refusal.into()), "{date}");
        assert_eq!(day_reason(date), Err(refusal.into()), "{date}");
        assert_eq!(is_werktag(date), Err(refusal.into()), "{date}");
        assert_eq!(Feiertag::on(date), Err(refusal.into()), "{date}");
    }
    for year in [0, 1995, 2900, u16::MAX] {
        assert_eq!(Feiertag::of_year(year), Err(refusal.into()), "{year}");
    }
    // Nor would it be one if a refusal had another number, or came with a kind.
    for number in 1..=u8::MAX {
        for kind in 0..=22 {
            let mut bytes = [0; Answer::LEN];
            (bytes[0], bytes[1]) = (number, kind);
            assert!(Answer::from_bytes(bytes).read::<DayReason>(Call::IsWerktag).is_err());
        }
    }
}
