//! Which part of a question a call refuses, and why, in German.

use crate::deutsch::{dem, monat, zeitpunkt};
use crate::inquiry::Inquiry;
use crate::leaves;
use mako_fristen_host::{
    berlin_date, BerlinTime, Clock, Date, Instant, Parameter, Refusal, Sparte, VorlaufShape,
};

const FIRST: &str = "1. Januar 1996";
const LAST: &str = "31. Dezember 2899";

/// One sentence.
pub fn of(inquiry: &Inquiry, refusal: Refusal) -> String {
    let question = &inquiry.question;
    let found = match refusal {
        Refusal::NoDate => no_date(inquiry),
        Refusal::InstantOutside => outside(inquiry),
        Refusal::NoClock => {
            clock(question.clock).map(|why| match inquiry.call.takes(Parameter::Instant) {
                true => format!("UHRZEIT {why}."),
                false => format!("{why}."),
            })
        }
        Refusal::LocalTimeAbsent => absent_in(inquiry),
        Refusal::NoBeginning => no_beginning(inquiry),
        Refusal::LeavesCalendar => leaves::of(inquiry),
        _ => None,
    };
    found.unwrap_or_else(|| refusal.beschreibung().to_owned())
}

/// Of the transmission days that an anchor allows.
pub fn of_anchor((shape, anchor): (VorlaufShape, Date), refusal: Refusal) -> String {
    let found = match refusal {
        Refusal::NoDate => date_why(anchor).map(|why| format!("{why}.")),
        Refusal::LeavesCalendar => Some(leaves::of_anchor(shape, anchor, "den Termin")),
        _ => None,
    };
    found.unwrap_or_else(|| refusal.beschreibung().to_owned())
}

/// The dates that are none.
fn no_date(inquiry: &Inquiry) -> Option<String> {
    let (date, date2) = (date_why(inquiry.question.date), date_why(inquiry.question.date2));
    each(inquiry, [(Parameter::Date, date), (Parameter::SecondDate, date2)])
}

/// The instants outside.
fn outside(inquiry: &Inquiry) -> Option<String> {
    let why = [inquiry.question.instant, inquiry.question.instant2].map(instant_why);
    let [instant, instant2] = why;
    each(inquiry, [(Parameter::Instant, instant), (Parameter::SecondInstant, instant2)])
}

/// A clause for each parameter of the call that is to blame, and a full stop.
fn each(inquiry: &Inquiry, given: [(Parameter, Option<String>); 2]) -> Option<String> {
    let taken = given.into_iter().filter(|(parameter, _)| inquiry.call.takes(*parameter));
    let clause = |(parameter, why): (_, Option<String>)| Some(label(inquiry, parameter) + &why?);
    let clauses: Vec<String> = taken.filter_map(clause).collect();
    (!clauses.is_empty()).then(|| format!("{}.", clauses.join("; ")))
}

/// Before what is wrong, where the call takes several dates or instants.
fn label(inquiry: &Inquiry, parameter: Parameter) -> String {
    let times =
        [Parameter::Date, Parameter::SecondDate, Parameter::Instant, Parameter::SecondInstant];
    match times.into_iter().filter(|time| inquiry.call.takes(*time)).count() {
        0 | 1 => String::new(),
        _ => inquiry.label(parameter).to_owned() + " ",
    }
}

/// `2026-02-30: der Februar 2026 hat 28 Tage`; none for a date that the calls take.
pub fn date_why(date: Date) -> Option<String> {
    Some(format!("{date}: {}", why_no_date(date)?))
}

fn why_no_date(date: Date) -> Option<String> {
    let Date { year, month, day } = date;
    if !(1..=12).contains(&month) {
        return Some(format!("einen {month}. Monat gibt es nicht"));
    }
    if date.day_number().is_none() {
        let last = (28..=31).rev().find(|day| Date::new(year, month, *day).weekday().is_some())?;
        let name = monat(month);
        return Some(match day {
            0 => format!("einen 0. {name} gibt es nicht"),
            _ => format!("der {name} {year} hat {last} Tage"),
        });
    }
    if date < Date::FIRST {
        return Some(format!("der Kalender beginnt am {FIRST}"));
    }
    (date > Date::LAST).then(|| format!("der Kalender endet am {LAST}"))
}

fn instant_why(instant: Instant) -> Option<String> {
    let shown = match instant.utc() {
        Some((date, clock)) if date.year <= 9999 => format!("{date} {} UTC", clock.uhr()),
        _ => instant.to_string(),
    };
    if instant.nanos > Instant::LAST.nanos {
        return Some(format!("{instant}: über 999999999 Nanosekunden beginnt die nächste Sekunde"));
    }
    if instant < Instant::FIRST {
        return Some(format!("{shown}: der Kalender beginnt am {FIRST} um 00:00 Uhr in Berlin"));
    }
    (instant > Instant::LAST)
        .then(|| format!("{shown}: der Kalender endet mit dem {LAST} in Berlin"))
}

/// Why a clock shows no such time.
fn clock(Clock { hour, minute, second, nanos }: Clock) -> Option<String> {
    let shown = format!("{hour:02}:{minute:02}:{second:02}");
    let why = match (hour, minute, second, nanos) {
        (24, 0, 0, 0) => "die letzte Stunde ist 23; 24:00 Uhr ist 00:00 Uhr des nächsten Tages",
        (24.., ..) => "die letzte Stunde ist 23",
        (_, 60.., ..) => "die letzte Minute ist 59",
        (_, _, 60.., _) => "die letzte Sekunde ist 59",
        (.., 1_000_000_000..) => "über 999999999 Nanosekunden beginnt die nächste Sekunde",
        _ => return None,
    };
    Some(format!("{shown}: {why}"))
}

/// Of `berlin_at` its date, of `SameDayAt` the day of the receipt.
fn absent_in(inquiry: &Inquiry) -> Option<String> {
    let question = &inquiry.question;
    let date = match inquiry.call.takes(Parameter::Instant) {
        true => berlin_date(question.instant).ok()?,
        false => question.date,
    };
    Some(absent(date, question.clock))
}

fn absent(date: Date, clock: Clock) -> String {
    format!(
        "Am {}, gibt es {} in Berlin nicht: um 02:00 Uhr wird die Uhr auf 03:00 Uhr vorgestellt.",
        dem(date),
        clock.uhr()
    )
}

/// Of an instant that was given by Berlin's clock, under its name.
pub fn of_berlin(label: &str, refusal: Refusal, date: Date, at: Clock) -> String {
    let found = match refusal {
        Refusal::NoDate => date_why(date),
        Refusal::NoClock => clock(at),
        Refusal::LocalTimeAbsent => return absent(date, at),
        _ => None,
    };
    match found {
        Some(why) => format!("{label} {why}."),
        None => refusal.beschreibung().to_owned(),
    }
}

fn no_beginning(inquiry: &Inquiry) -> Option<String> {
    let (question, sparte) = (&inquiry.question, inquiry.sparte().ok()?);
    let instant = match inquiry.call.takes(Parameter::SecondInstant) {
        true => question.instant2,
        false => question.instant,
    };
    let begins = match sparte {
        Sparte::Strom => "00:00",
        Sparte::Gas => "06:00",
    };
    let shown = zeitpunkt(BerlinTime::of(instant).ok()?);
    Some(format!("{shown}: in der Sparte {sparte} beginnt ein Tag um {begins} Uhr in Berlin."))
}
