//! The values that many answers have.

use crate::errors::unless_refused;
use crate::json::Json;
use crate::skipped::Closed;
use crate::uebertragung::Uebertragungstage;
use mako_fristen_host::{BerlinTime, Clock, Date, Error, Instant, Span};

/// What an instant is in UTC and in Berlin; null where no clock or calendar shows it.
pub fn instant(instant: Instant) -> Result<Json, Error> {
    let utc = instant.utc().filter(|(date, at)| date.year <= 9999 && at.second_of_day().is_some());
    let shown = unless_refused(BerlinTime::of(instant))?;
    Ok(Json::Object(vec![
        ("seconds", instant.seconds.into()),
        ("nanos", instant.nanos.into()),
        ("utc", utc.map(|(date, at)| Json::Text(stamp(date, at, "Z"))).into()),
        ("berlin", shown.map(|time| Json::Text(berlin(time))).into()),
        ("weekday", weekday(shown.map(|time| time.date))),
        ("summer", shown.map(|time| time.summer).into()),
        ("repeated", shown.map(|time| time.repeated).into()),
    ]))
}

/// From an instant to another.
pub fn window(from: Instant, to: Instant) -> Result<Json, Error> {
    Ok(Json::Object(vec![("from", instant(from)?), ("to", instant(to)?)]))
}

/// As RFC 3339 has what Berlin's clock shows.
pub fn berlin(BerlinTime { date, clock, summer, .. }: BerlinTime) -> String {
    stamp(date, clock, if summer { "+02:00" } else { "+01:00" })
}

fn stamp(date: Date, at: Clock, offset: &str) -> String {
    format!("{date}T{}{offset}", time(at))
}

pub fn clock(at: Clock) -> Json {
    Json::Text(time(at))
}

/// With nine digits of a second or none.
fn time(at: Clock) -> String {
    let text = at.to_string();
    text.strip_suffix(".000000000").unwrap_or(&text).to_owned()
}

pub fn weekday(date: Option<Date>) -> Json {
    date.and_then(Date::weekday).map(Json::text).into()
}

/// The anchors that a transmission day allows.
pub fn span(span: Option<Span>) -> Json {
    span.map(|span| match span {
        Span::From(first) => ends(false, Some(first), None),
        Span::Between(first, last) => ends(false, Some(first), Some(last)),
        Span::Empty => ends(true, None, None),
    })
    .into()
}

/// The transmission days that an anchor allows.
pub fn days(days: Option<Uebertragungstage>) -> Json {
    days.map(|days| match days.is_empty() {
        true => ends(true, None, None),
        false => ends(false, days.first, Some(days.last)),
    })
    .into()
}

fn ends(empty: bool, first: Option<Date>, last: Option<Date>) -> Json {
    Json::Object(vec![("empty", empty.into()), ("first", first.into()), ("last", last.into())])
}

/// Each kind of day that was passed over, with how many of it.
pub fn skipped(skipped: Vec<(Closed, u32)>) -> Json {
    let row = |(closed, days): (Closed, u32)| {
        Json::Object(vec![("name", closed.name().into()), ("days", days.into())])
    };
    Json::list(skipped.into_iter().map(row))
}
