//! Dates, clock times and instants as people write them.

use crate::deutsch::{monat, zeitpunkt};
use crate::words::normal;
use mako_fristen_host::{berlin_at, berlin_date, BerlinTime, Clock, Date, Error, Instant, Refusal};
use std::time::SystemTime;

pub const DATE: &str = "ein Datum wie 2026-04-02 oder 2.4.2026";
pub const CLOCK: &str = "eine Uhrzeit wie 13:00, 13:00:00 oder 13:00:00,5";
const INSTANT: &str = "einen Zeitpunkt wie 31.3.2026 11:59 oder heute 11:59 in Berlin, \
                       2026-03-31T11:59:59+02:00 oder @SEKUNDEN seit 1970";

/// In seconds.
const HOUR: i64 = 3600;

pub fn now() -> Instant {
    Instant::from(SystemTime::now())
}

/// The words for days beside the one that Berlin has now.
pub const DAYS: [&str; 5] = ["heute", "morgen", "übermorgen", "gestern", "vorgestern"];

/// `2026-04-02`, `02.04.2026`, `2.4.2026`, `2. April 2026`, or one of these words.
pub fn date(word: &str, now: Instant) -> Option<Date> {
    let written = word.parse().ok().or_else(|| german_date(word));
    written.or_else(|| said_date(word, now)).or_else(|| long_date(word))
}

fn said_date(word: &str, now: Instant) -> Option<Date> {
    if word.starts_with(|c: char| c.is_ascii_digit()) {
        return None;
    }
    let days = match &normal(word)[..] {
        "heute" => 0,
        "morgen" => 1,
        "uebermorgen" => 2,
        "gestern" => -1,
        "vorgestern" => -2,
        _ => return None,
    };
    berlin_date(now).ok()?.plus_days(days)
}

fn german_date(word: &str) -> Option<Date> {
    let mut parts = word.split('.');
    let mut part = |least, most| {
        parts.next().filter(|part| is_number(part) && (least..=most).contains(&part.len()))
    };
    let (day, month, year) = (part(1, 2)?, part(1, 2)?, part(4, 4)?);
    parts.next().is_none().then_some(())?;
    Some(Date::new(year.parse().ok()?, month.parse().ok()?, day.parse().ok()?))
}

fn long_date(words: &str) -> Option<Date> {
    let mut words = words.split_whitespace();
    let (day, month, year) = (words.next()?, words.next()?, words.next()?);
    words.next().is_none().then_some(())?;
    let day = day.strip_suffix('.').unwrap_or(day);
    german_date(&format!("{day}.{}.{year}", month_named(month)?))
}

/// The number of a month's name.
pub fn month_named(word: &str) -> Option<u8> {
    let word = normal(word);
    (1..=12).find(|month| normal(&monat(*month)) == word)
}

/// The date that a word may have been meant for, in the German form: one with other marks between
/// its numbers, with fewer digits, or without a year, which is this one then.
pub fn date_meant(word: &str, now: Instant) -> Option<String> {
    let word = word.trim_matches([' ', ',', ';', '.']);
    let parts: Vec<&str> = word.split(['.', '/', '-']).map(str::trim).collect();
    let this_year = berlin_date(now).ok()?.year.to_string();
    let (day, month, year) = match parts[..] {
        [day, month] => (day, month, this_year),
        [year, month, day] if year.len() == 4 => (day, month, year.to_owned()),
        [day, month, year] if year.len() == 2 => (day, month, format!("20{year}")),
        [day, month, year] => (day, month, year.to_owned()),
        _ => return None,
    };
    let date = german_date(&format!("{day}.{month}.{year}"))?;
    let Date { year, month, day } = Some(date).filter(|date| date.is_in_calendar())?;
    Some(format!("{day}.{month}.{year}"))
}

/// A clock time with one digit of an hour or two, and a comma or a point before its fraction; also as
/// it is said, `11 Uhr` or `11.30 Uhr`.
pub fn clock(word: &str) -> Option<Clock> {
    let word = word.trim();
    let said = word.strip_suffix("Uhr").or_else(|| word.strip_suffix("uhr")).map(str::trim_end);
    let hour = said.filter(|hour| is_number(hour) && hour.len() <= 2);
    let word = hour.map_or_else(|| said.unwrap_or(word).to_owned(), |hour| format!("{hour}:00"));
    let word = with_colon(&word).unwrap_or(word);
    let (hour, _) = word.split_once(':')?;
    let padded = if hour.len() == 1 { "0" } else { "" };
    format!("{padded}{}", word.replacen(',', ".", 1)).parse().ok()
}

/// `11.30`, where a clock time stands, is one.
fn with_colon(word: &str) -> Option<String> {
    let (hour, minute) = word.split_once('.')?;
    let fits = is_number(hour) && hour.len() <= 2 && is_number(minute) && minute.len() == 2;
    fits.then(|| format!("{hour}:{minute}"))
}

/// An instant that was read, and what whoever wrote it should know of it.
#[derive(Debug, PartialEq, Eq)]
pub struct Moment {
    pub instant: Instant,
    /// That the offset is not Berlin's.
    pub note: Option<String>,
    /// That Berlin's clock shows this time twice, if it is one of Berlin's.
    pub twice: bool,
}

/// Why a word is no instant.
#[derive(Debug, PartialEq, Eq)]
pub enum NoMoment {
    /// It is not written as one: this was expected.
    Expected(String),
    /// The date or the clock time is none, or Berlin's clock does not show it.
    Refused(Refusal, Date, Clock),
}

/// `jetzt`; `@` and seconds; or a date and a clock time, with an offset or Berlin's.
pub fn moment(word: &str, now: Instant) -> Result<Moment, NoMoment> {
    let plain = |instant| Moment { instant, note: None, twice: false };
    if word.eq_ignore_ascii_case("jetzt") {
        // Nobody reads out the fraction of a second.
        return Ok(plain(Instant { nanos: 0, ..now }));
    }
    if word.starts_with('@') {
        return word.replacen(',', ".", 1).parse().map(plain).map_err(|_| expected());
    }
    if is_time(word) {
        return Err(NoMoment::Expected(format!("zur Uhrzeit ein Datum, wie heute {word}")));
    }
    let (day, time) = parted(word).ok_or_else(expected)?;
    let date = date(day, now).ok_or_else(expected)?;
    let Some(time) = time else {
        return Err(NoMoment::Expected(format!("zum Datum eine Uhrzeit, wie {day} 11:59")));
    };
    let (clock, offset) = timed(time).ok_or_else(|| no_time(day, time))?;
    match offset {
        None => in_berlin(date, clock),
        Some(offset) => with_offset(date, clock, offset),
    }
}

fn is_time(word: &str) -> bool {
    timed(word).is_some()
}

/// Whether a word is the offset of the clock time before it: `+02:00`, `-0430`, `Z`.
pub fn is_offset(word: &str) -> bool {
    matches!(word, "Z" | "z")
        || (word.starts_with(['+', '-']) && word.len() >= 5 && east(word).is_some())
}

/// Whether a word can be meant as the clock time of the date before it: no count stands there.
pub fn may_be_time(word: &str) -> bool {
    is_time(word) || (is_number(word) && word.len() <= 2)
}

/// Behind a date only the clock time is to blame, or its offset.
fn no_time(day: &str, time: &str) -> NoMoment {
    if time.contains(['+', '-']) {
        return NoMoment::Expected("einen Abstand zu UTC wie +02:00".to_owned());
    }
    let hour = Some(time).filter(|time| is_number(time) && time.len() <= 2);
    let example = hour.map_or_else(|| "11:59".to_owned(), |hour| format!("{hour}:00"));
    NoMoment::Expected(format!("zum Datum eine Uhrzeit, wie {day} {example}"))
}

fn expected() -> NoMoment {
    NoMoment::Expected(INSTANT.to_owned())
}

/// The date and the clock time, with blanks or a `T` between.
fn parted(word: &str) -> Option<(&str, Option<&str>)> {
    let word = word.trim();
    if let Some(parted) = after_long_date(word) {
        return Some(parted);
    }
    let behind_digit = |at: usize| word.as_bytes().get(at - 1).is_some_and(u8::is_ascii_digit);
    let mark = word
        .char_indices()
        .skip(1)
        .find(|(at, c)| matches!(c, ' ' | '\t') || (matches!(c, 'T' | 't') && behind_digit(*at)));
    match mark {
        Some((at, _)) => Some((word.get(..at)?, Some(word.get(at + 1..)?.trim_start()))),
        None => Some((word, None)),
    }
}

/// `2. April 2026`, and what stands behind it.
fn after_long_date(word: &str) -> Option<(&str, Option<&str>)> {
    let parts: Vec<&str> = word.splitn(4, [' ', '\t']).collect();
    let [day, month, year, ..] = parts[..] else { return None };
    let date = word.get(..day.len() + month.len() + year.len() + 2)?;
    long_date(date)?;
    Some((date, parts.get(3).map(|time| time.trim_start())))
}

/// What stands behind a clock time.
#[derive(Clone, Copy, Debug, PartialEq, Eq)]
enum Offset {
    /// `Z`, which names UTC and no clock of a place.
    Utc,
    East(i64),
    TooLarge,
}

/// Also behind `um`, as it is said.
fn timed(text: &str) -> Option<(Clock, Option<Offset>)> {
    let text = text.trim().strip_prefix("um ").unwrap_or(text.trim());
    let end = text.find(['Z', 'z', '+', '-']).unwrap_or(text.len());
    let (time, offset) = text.split_at(end);
    let offset = match offset {
        "" => None,
        "Z" | "z" => Some(Offset::Utc),
        _ => Some(east(offset)?),
    };
    Some((clock(time.trim_end())?, offset))
}

/// `+01:00`, `+0100` or `+01`.
fn east(text: &str) -> Option<Offset> {
    let digits: String = text.get(1..)?.replacen(':', "", 1);
    let colon_fits = text.len() == digits.len() + 1 || text.get(3..4) == Some(":");
    if !is_number(&digits) || !matches!(digits.len(), 2 | 4) || !colon_fits {
        return None;
    }
    let (hours, minutes) = digits.split_at(2);
    let hours: i64 = hours.parse().ok()?;
    let minutes: i64 = if minutes.is_empty() { 0 } else { minutes.parse().ok()? };
    if hours > 23 || minutes > 59 {
        return Some(Offset::TooLarge);
    }
    let east = hours * HOUR + minutes * 60;
    Some(Offset::East(if text.starts_with('-') { -east } else { east }))
}

fn in_berlin(date: Date, clock: Clock) -> Result<Moment, NoMoment> {
    let instant = berlin_at(date, clock).map_err(|error| match error {
        Error::Refused(refusal) => NoMoment::Refused(refusal, date, clock),
        // The archive is looked at before anything is read.
        Error::Unreadable(_) => expected(),
    })?;
    let twice = BerlinTime::of(instant).is_ok_and(|time| time.repeated);
    Ok(Moment { instant, note: None, twice })
}

fn with_offset(date: Date, clock: Clock, offset: Offset) -> Result<Moment, NoMoment> {
    // As `berlin_at` refuses them, but a date outside the calendar may be one of an instant inside.
    let no = |refusal| NoMoment::Refused(refusal, date, clock);
    let shown = Instant::of_utc(date, clock).ok_or_else(|| no(Refusal::NoDate))?;
    clock.second_of_day().ok_or_else(|| no(Refusal::NoClock))?;
    let east = match offset {
        Offset::Utc => 0,
        Offset::East(east) => east,
        Offset::TooLarge => {
            return Err(NoMoment::Expected("einen Abstand zu UTC bis 23:59".to_owned()));
        }
    };
    let instant = shown.plus_seconds(-east).ok_or_else(expected)?;
    let note = if offset == Offset::Utc { None } else { not_berlins(instant, east) };
    Ok(Moment { instant, note, twice: false })
}

/// That Berlin's clock has another offset then; nothing where the calls know no Berlin clock.
fn not_berlins(instant: Instant, east: i64) -> Option<String> {
    let time = BerlinTime::of(instant).ok()?;
    let berlins = if time.summer { 2 } else { 1 };
    (east != berlins * HOUR).then(|| {
        let shown = zeitpunkt(time);
        format!("in Berlin gilt dann +0{berlins}:00; gelesen ist {shown}")
    })
}

pub fn is_number(word: &str) -> bool {
    !word.is_empty() && word.bytes().all(|byte| byte.is_ascii_digit())
}

#[cfg(test)]
mod tests {
    use super::*;

    /// Tuesday, 31 March 2026, 23:30 in Berlin, where it is summer: in UTC still 21:30.
    const NOW: Instant = Instant::new(1_774_992_600, 0);

    #[test]
    fn a_date_in_any_of_its_forms() {
        let second_of_april = Some(Date::new(2026, 4, 2));
        let long = ["2. April 2026", "2 april 2026", "02.  April  2026"];
        for word in ["2026-04-02", "02.04.2026", "2.4.2026", "2.04.2026"].into_iter().chain(long) {
            assert_eq!(date(word, NOW), second_of_april, "{word}");
        }
        let days = [("heute", 31, 3), ("Morgen", 1, 4), ("GESTERN", 30, 3)];
        for (word, day, month) in days {
            assert_eq!(date(word, NOW), Some(Date::new(2026, month, day)), "{word}");
        }
        assert_eq!(date("30.02.2026", NOW), Some(Date::new(2026, 2, 30)), "the call judges it");
    }

    /// An hour before midnight in UTC the day in Berlin is the next one.
    #[test]
    fn today_is_berlins() {
        let half_past_midnight = Instant::new(NOW.seconds + HOUR, 0);
        assert_eq!(date("heute", half_past_midnight), Some(Date::new(2026, 4, 1)));
        assert_eq!(date("heute", Instant::new(0, 0)), None, "the calls know no such day");
    }

    #[test]
    fn what_is_no_date() {
        for word in [
            "",
            "2026-4-2",
            "2.4.26",
            "2.4.",
            "2.4",
            "2/4/2026",
            "4.2026",
            "002.04.2026",
            "2.4.2026.",
            "2.4.02026",
            "+2.4.2026",
            "2. 4. 2026",
            "bald",
            "20260402",
        ] {
            assert_eq!(date(word, NOW), None, "{word}");
        }
    }

    #[test]
    fn a_clock_time_with_a_comma_or_a_point() {
        let half = Clock::new(9, 5, 7, 500_000_000);
        for word in ["09:05:07,5", "9:05:07.5", "09:05:07.500000000"] {
            assert_eq!(clock(word), Some(half), "{word}");
        }
        assert_eq!(clock("9:05"), Some(Clock::new(9, 5, 0, 0)));
        assert_eq!(clock("24:00"), Some(Clock::new(24, 0, 0, 0)), "the call judges it");
        for word in ["", "9", "9:5", "009:05", ":05", "09:05,5", "09:05:07,", "09:05:07,5,5"] {
            assert_eq!(clock(word), None, "{word}");
        }
    }

    fn instant(word: &str) -> Result<Instant, NoMoment> {
        moment(word, NOW).map(|moment| moment.instant)
    }

    /// By `date -u -d '2026-03-31 09:59' +%s`, in summer time two hours before Berlin's clock.
    #[test]
    fn an_instant_by_berlins_clock_or_with_an_offset() {
        let expected = Ok(Instant::new(1_774_951_140, 0));
        for word in [
            "2026-03-31 11:59",
            "2026-03-31T11:59:00",
            "2026-03-31t11:59",
            "31.3.2026 11:59",
            "31.03.2026T11:59",
            "heute 11:59",
            " Heute \t 11:59",
            "31. März 2026 um 11:59 Uhr",
            "31. maerz 2026  11:59",
            "2026-03-31T11:59+02:00",
            "2026-03-31T11:59:00+0200",
            "2026-03-31 11:59+02",
            "2026-03-31 11:59 +02:00",
            "2026-03-31T11:59 +02:00",
            "2026-03-31T09:59Z",
            "31.3.2026 9:59z",
            "2026-03-31T05:29-04:30",
            "@1774951140",
            "@1774951140,0",
            "@1774951140s0ns",
        ] {
            assert_eq!(instant(word), expected, "{word}");
        }
        assert_eq!(instant("jetzt"), Ok(NOW));
        let half = Ok(Instant::new(1_774_951_140, 500_000_000));
        for word in ["2026-03-31 11:59:00,5", "2026-03-31T11:59:00.5+02:00", "@1774951140,5"] {
            assert_eq!(instant(word), half, "{word}");
        }
    }

    #[test]
    fn an_offset_that_is_not_berlins_has_a_note() {
        let note = |word| moment(word, NOW).map(|moment| moment.note);
        let in_summer =
            "in Berlin gilt dann +02:00; gelesen ist Dienstag, 31. März 2026, 12:00 Uhr";
        assert_eq!(note("2026-03-31T11:00+01:00"), Ok(Some(in_summer.to_owned())));
        let in_winter =
            "in Berlin gilt dann +01:00; gelesen ist Freitag, 9. Januar 2026, 11:00 Uhr";
        assert_eq!(note("2026-01-09T12:00:00+0200"), Ok(Some(in_winter.to_owned())));
        assert!(note("2026-01-09T12:00:00+00:00").is_ok_and(|note| note.is_some()));
        for word in [
            "2026-03-31T11:00+02:00",
            "2026-01-09T12:00+01",
            "2026-10-25T02:30+02:00",
            "2026-10-25T02:30+01:00",
            // UTC by its name is meant, and is no clock of a place.
            "2026-03-31T11:00Z",
            "2026-03-31 11:00",
            "@1774951140",
            // The calls know no Berlin clock then.
            "1995-01-01T12:00+02:00",
        ] {
            assert_eq!(note(word), Ok(None), "{word}");
        }
    }

    #[test]
    fn a_time_that_berlins_clock_shows_twice_or_never() {
        let autumn = moment("2026-10-25 02:30", NOW).expect("the earlier");
        assert_eq!((autumn.instant.seconds, autumn.twice), (1_792_888_200, true));
        let after = moment("2026-10-25 03:00", NOW).expect("it is shown once");
        assert!(!after.twice);
        assert!(!moment("2026-10-25T02:30+02:00", NOW).expect("the offset tells").twice);
        let refused = |word| match instant(word) {
            Err(NoMoment::Refused(refusal, ..)) => Some(refusal),
            _ => None,
        };
        assert_eq!(refused("2026-03-29 02:30"), Some(Refusal::LocalTimeAbsent));
        assert_eq!(refused("2026-02-29 02:30"), Some(Refusal::NoDate));
        assert_eq!(refused("1995-12-31 23:59"), Some(Refusal::NoDate));
        assert_eq!(refused("2026-03-31 24:00"), Some(Refusal::NoClock));
        assert_eq!(refused("2026-03-31 11:00:60"), Some(Refusal::NoClock));
    }

    #[test]
    fn what_is_no_instant_says_what_was_expected() {
        let expected = |word: &str| match instant(word) {
            Err(NoMoment::Expected(expected)) => expected,
            other => panic!("{word}: {other:?}"),
        };
        for word in ["", "@", "morgens 11:59", "@1,5,5", "T11:59", "31.3. 11:59"] {
            assert!(expected(word).starts_with("einen Zeitpunkt wie"), "{word}");
        }
        let of_date = "zum Datum eine Uhrzeit, wie 2026-03-31 11:59";
        for word in ["2026-03-31", "2026-03-31 bald", "2026-03-31T", "2026-03-31 11h"] {
            assert_eq!(expected(word), of_date, "{word}");
        }
        assert_eq!(expected("heute 9"), "zum Datum eine Uhrzeit, wie heute 9:00");
        assert_eq!(expected("11:59"), "zur Uhrzeit ein Datum, wie heute 11:59");
        for offset in ["+2", "+020", "+02:0", "+0:200", "++02:00"] {
            let word = format!("2026-03-31T11:59{offset}");
            assert_eq!(expected(&word), "einen Abstand zu UTC wie +02:00", "{word}");
        }
        assert_eq!(expected("2026-03-31T11:59+24:00"), "einen Abstand zu UTC bis 23:59");
    }

    /// With an offset as without.
    #[test]
    fn a_date_or_a_clock_time_that_is_none_is_refused() {
        let refused = |word: &str| match instant(word) {
            Err(NoMoment::Refused(refusal, ..)) => refusal,
            other => panic!("{word}: {other:?}"),
        };
        for offset in ["", "Z", "+02:00"] {
            assert_eq!(refused(&format!("2026-02-30T11:59{offset}")), Refusal::NoDate);
            assert_eq!(refused(&format!("2026-03-31T24:00{offset}")), Refusal::NoClock);
            assert_eq!(refused(&format!("2016-12-31T23:59:60{offset}")), Refusal::NoClock);
        }
        assert!(instant("1995-12-31T23:59Z").is_ok(), "Berlin has the next year");
    }

    #[test]
    fn a_clock_time_as_it_is_said() {
        let nine = instant("2026-03-31 09:00");
        for time in [
            "9 Uhr",
            "9:00 Uhr",
            "um 9 Uhr",
            "um 09:00",
            "um 9:00:00 Uhr",
            " 9:00",
            "9uhr",
            "9.00 Uhr",
        ] {
            assert_eq!(instant(&format!("31.3.2026 {time}")), nine, "{time}");
        }
        for time in ["9", "um", "Uhr", "900 Uhr", "9.0 Uhr", "9.00.00"] {
            assert!(instant(&format!("31.3.2026 {time}")).is_err(), "{time}");
        }
        assert!(may_be_time("9") && may_be_time("9.00") && !may_be_time("900"));
        assert_eq!(clock("11 Uhr"), Some(Clock::new(11, 0, 0, 0)));
        assert_eq!(clock("11.30"), Some(Clock::new(11, 30, 0, 0)));
        assert!(is_offset("+02:00") && is_offset("-0430") && is_offset("Z"));
        assert!(!is_offset("-3") && !is_offset("+2") && !is_offset("2"));
    }

    #[test]
    fn the_date_that_was_meant() {
        let meant = [
            ("8.5.", "8.5.2026"),
            ("8.5", "8.5.2026"),
            ("08.05.26", "8.5.2026"),
            ("2026-5-8", "8.5.2026"),
            ("8/5/2026", "8.5.2026"),
            (" 8.5.2026,", "8.5.2026"),
            ("8-5-2026", "8.5.2026"),
        ];
        for (word, date) in meant {
            assert_eq!(date_meant(word, NOW).as_deref(), Some(date), "{word}");
        }
        for word in ["", "bald", "8", "8.5.2026.1", "8.13.", "30.2.2026", "8.5.226", "08.05.1926"] {
            assert_eq!(date_meant(word, NOW), None, "{word}");
        }
    }
}
