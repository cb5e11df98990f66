//! Dates, instants and numbers as a sentence has them.

use mako_fristen_host::{BerlinTime, Clock, Date, Instant};

pub const MONATE: [&str; 12] = [
    "Januar",
    "Februar",
    "März",
    "April",
    "Mai",
    "Juni",
    "Juli",
    "August",
    "September",
    "Oktober",
    "November",
    "Dezember",
];

/// From one on, of a masculine noun.
const ZAHLEN: [&str; 12] = [
    "ein", "zwei", "drei", "vier", "fünf", "sechs", "sieben", "acht", "neun", "zehn", "elf",
    "zwölf",
];

/// The last nanosecond of a day.
const TAGESENDE: Clock = Clock::new(23, 59, 59, 999_999_999);

/// The name of a month, or its number if there is none.
pub fn monat(month: u8) -> String {
    let name = usize::from(month).checked_sub(1).and_then(|place| MONATE.get(place));
    name.map_or_else(|| month.to_string(), |name| (*name).to_owned())
}

/// `Dienstag, der 7. April 2026`
pub fn der(date: Date) -> String {
    with_article(date, "der ")
}

/// `Dienstag, dem 7. April 2026`
pub fn dem(date: Date) -> String {
    with_article(date, "dem ")
}

/// `Dienstag, den 7. April 2026`
pub fn den(date: Date) -> String {
    with_article(date, "den ")
}

/// `Dienstag, 7. April 2026`
pub fn tag(date: Date) -> String {
    with_article(date, "")
}

fn with_article(date: Date, article: &str) -> String {
    let day = day_and_month(date);
    match date.weekday() {
        Some(weekday) => format!("{weekday}, {article}{day} {}", date.year),
        None => format!("{article}{day} {}", date.year),
    }
}

fn day_and_month(date: Date) -> String {
    format!("{}. {}", date.day, monat(date.month))
}

/// `am Dienstag, dem 31. März 2026, um 17:59:59 Uhr`
pub fn am(time: BerlinTime) -> String {
    format!("am {}, um {}", dem(time.date), uhr(time))
}

/// `Dienstag, 31. März 2026, 17:59:59 Uhr`
pub fn zeitpunkt(time: BerlinTime) -> String {
    with_clock(time, tag)
}

/// The same with the day's article: `Dienstag, dem 31. März 2026, 17:59:59 Uhr`
pub fn with_clock(time: BerlinTime, day: fn(Date) -> String) -> String {
    format!("{}, {}", day(time.date), uhr(time))
}

/// As in 'endet …': the end of a day by the day, its beginning by the night, any other instant by
/// the clock.
pub fn faellig(time: BerlinTime) -> String {
    let BerlinTime { date, clock, .. } = time;
    match date.weekday() {
        Some(weekday) if clock == TAGESENDE => {
            format!("mit Ablauf des {weekday}s, des {} {}", day_and_month(date), date.year)
        }
        Some(weekday) if clock == Clock::default() => {
            format!("in der {}, am {weekday} um {}", nacht_auf(date), uhr(time))
        }
        _ => am(time),
    }
}

/// `Nacht vom 1. auf den 2. April 2026`, with the month and the year before where they are others.
fn nacht_auf(date: Date) -> String {
    let to = format!("{} {}", day_and_month(date), date.year);
    match date.plus_days(-1) {
        Some(before) if before.year != date.year => {
            format!("Nacht vom {} {} auf den {to}", day_and_month(before), before.year)
        }
        Some(before) if before.month != date.month => {
            format!("Nacht vom {} auf den {to}", day_and_month(before))
        }
        Some(before) => format!("Nacht vom {}. auf den {to}", before.day),
        None => format!("Nacht auf den {to}"),
    }
}

/// The clock time; if the clock shows it twice, which of the two.
pub fn uhr(time: BerlinTime) -> String {
    let which = match (time.repeated, time.summer) {
        (true, true) => " Sommerzeit",
        (true, false) => " Winterzeit",
        _ => "",
    };
    format!("{}{which}", time.clock.uhr())
}

/// Of an instant that was given by a clock time which the clock shows twice.
pub fn zweimal(time: BerlinTime) -> String {
    let (day, uhr) = (dem(time.date), time.clock.uhr());
    format!(
        "Am {day}, zeigt die Uhr in Berlin zweimal {uhr}; gemeint ist die frühere. Nach der späteren \
         fragt, wer +01:00 dahinter schreibt."
    )
}

/// `Sonntag, der 25. Oktober 2026, 00:30 Uhr Weltzeit (UTC)`
pub fn utc(instant: Instant) -> String {
    match instant.utc() {
        Some((date, clock)) => format!("{}, {} Weltzeit (UTC)", der(date), clock.uhr()),
        None => instant.to_string(),
    }
}

/// `1 Werktag`, `2 Werktage`, `0 Werktage`
pub fn werktage(n: u32) -> String {
    count(n, "Werktag", "Werktage")
}

/// A margin counts every day, and that is to be heard.
pub fn kalendertage(n: u32) -> String {
    count(n, "Kalendertag", "Kalendertage")
}

pub fn monate(n: u32) -> String {
    count(n, "Monat", "Monate")
}

pub fn stunden(n: u32) -> String {
    count(n, "Stunde", "Stunden")
}

/// As in 'in …'.
pub fn werktagen(n: u32) -> String {
    count(n, "Werktag", "Werktagen")
}

/// From one on: `ein Samstag`, `zwei Samstage`, `13 Samstage`
pub fn in_worten(n: u32, one: &str, many: &str) -> String {
    let word = usize::try_from(n).ok().and_then(|n| ZAHLEN.get(n.checked_sub(1)?));
    let number = word.map_or_else(|| n.to_string(), |word| (*word).to_owned());
    format!("{number} {}", if n == 1 { one } else { many })
}

/// `1 Tag, der kein Werktag ist`
pub fn keine_werktage(n: u32) -> String {
    let none = if n == 1 { "der kein Werktag ist" } else { "die keine Werktage sind" };
    format!("{}, {none}", count(n, "Tag", "Tage"))
}

fn count(n: u32, one: &str, many: &str) -> String {
    format!("{n} {}", if n == 1 { one } else { many })
}

#[cfg(test)]
mod tests {
    use super::*;

    fn at(date: Date, clock: Clock) -> String {
        faellig(BerlinTime { date, clock, summer: false, repeated: false })
    }

    #[test]
    fn midnight_is_the_night_before_the_day() {
        let night = |year, month, day| at(Date::new(year, month, day), Clock::default());
        let in_a_month = "in der Nacht vom 1. auf den 2. April 2026, am Donnerstag um 00:00 Uhr";
        assert_eq!(night(2026, 4, 2), in_a_month);
        let over_a_month =
            "in der Nacht vom 31. März auf den 1. April 2026, am Mittwoch um 00:00 Uhr";
        assert_eq!(night(2026, 4, 1), over_a_month);
        let leap_day =
            "in der Nacht vom 29. Februar auf den 1. März 2028, am Mittwoch um 00:00 Uhr";
        assert_eq!(night(2028, 3, 1), leap_day);
        let over_a_year =
            "in der Nacht vom 31. Dezember 2026 auf den 1. Januar 2027, am Freitag um 00:00 Uhr";
        assert_eq!(night(2027, 1, 1), over_a_year);
    }

    #[test]
    fn only_midnight_is_a_night_and_only_the_last_instant_the_end() {
        let date = Date::new(2026, 4, 2);
        let just_after = at(date, Clock::new(0, 0, 0, 1));
        assert_eq!(just_after, "am Donnerstag, dem 2. April 2026, um 00:00:00,000000001 Uhr");
        assert_eq!(at(date, TAGESENDE), "mit Ablauf des Donnerstags, des 2. April 2026");
        let just_before = at(date, Clock::new(23, 59, 59, 999_999_998));
        assert_eq!(just_before, "am Donnerstag, dem 2. April 2026, um 23:59:59,999999998 Uhr");
    }

    #[test]
    fn numbers_up_to_twelve_are_words() {
        let samstage = |n| in_worten(n, "Samstag", "Samstage");
        let said = [1, 2, 3, 11, 12, 13, 52].map(samstage);
        let expected = ["ein Samstag", "zwei Samstage", "drei Samstage", "elf Samstage"];
        assert_eq!(said[..4], expected);
        assert_eq!(said[4..], ["zwölf Samstage", "13 Samstage", "52 Samstage"]);
    }
}
