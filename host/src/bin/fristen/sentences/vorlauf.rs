use super::anchor::{Anchor, TERMIN};
use super::rule;
use crate::deutsch::{am, der, kalendertage, keine_werktage, tag, werktage, werktagen};
use crate::errors::unless_refused;
use crate::inquiry::Inquiry;
use crate::uebertragung::{last, opening, Monatsschritt, Uebertragungstage};
use mako_fristen_host::{
    is_werktag, BerlinTime, Date, Error, Judgement, Parameter, Refusal, Span, VorlaufShape,
    VorlaufVerdict,
};

pub fn spanned(inquiry: &Inquiry, span: Span) -> Result<String, Error> {
    let (from, allowed) = (tag(inquiry.transmission_day()?), TERMIN.allowed(Some(span)));
    Ok(format!("Übertragungstag {from}: {allowed}\n{}", rule::of(inquiry.shape()?, &TERMIN, None)))
}

pub fn judged(inquiry: &Inquiry, given: Judgement) -> Result<String, Error> {
    verdict(inquiry, given, &TERMIN, &what(inquiry)?)
}

/// What was read: an instant by Berlin's clock, from which its day is taken.
fn what(inquiry: &Inquiry) -> Result<String, Error> {
    let to = tag(inquiry.anchor()?);
    if inquiry.call.takes(Parameter::Instant) {
        let (from, sparte) = (BerlinTime::of(inquiry.question.instant)?, inquiry.sparte()?);
        return Ok(format!("Übertragung {}, Termin {to}, Sparte {sparte}.", am(from)));
    }
    Ok(format!("Übertragungstag {}, Termin {to}.", tag(inquiry.transmission_day()?)))
}

/// A line each: the verdict with its margin and `what` was judged, which dates are allowed, the
/// rule with its days, how many Werktage are missing, and the original's date.
pub fn verdict(
    inquiry: &Inquiry,
    given: Judgement,
    anchor: &Anchor,
    what: &str,
) -> Result<String, Error> {
    let shape = inquiry.shape()?;
    let heading = format!("{}: {what}", heading(shape, given));
    let mut lines = vec![heading, anchor.allowed(inquiry.allowed()?)];
    lines.extend(ruled(inquiry, shape, given.margin, anchor)?);
    match given.verdict {
        VorlaufVerdict::Ok => {}
        VorlaufVerdict::TooEarly { excess_wt } => lines.extend(too_early(inquiry, excess_wt)?),
        VorlaufVerdict::TooLate { shortfall_wt, earliest_possible } => {
            lines.push(missing(shape, given.margin.unsigned_abs(), shortfall_wt));
            lines.extend(anchor.named(earliest_possible, inquiry)?);
        }
    }
    Ok(lines.join("\n"))
}

/// Whether the margin is the anchor's and not the transmission day's. No deregistration has such a
/// shape, so that the anchor is a Termin.
fn is_of_the_termin(shape: VorlaufShape) -> bool {
    matches!(shape, VorlaufShape::EarliestWerktageAfter(_))
}

/// The margin of the anchor has its place beside the rule.
fn heading(shape: VorlaufShape, Judgement { verdict, margin }: Judgement) -> String {
    let days = kalendertage(margin.unsigned_abs());
    match (verdict, is_of_the_termin(shape)) {
        (VorlaufVerdict::TooEarly { .. }, _) => "Zu früh".to_owned(),
        (VorlaufVerdict::TooLate { .. }, true) => "Zu spät".to_owned(),
        (VorlaufVerdict::TooLate { .. }, false) => format!("{days} zu spät"),
        (VorlaufVerdict::Ok, true) => "Frist gewahrt".to_owned(),
        (VorlaufVerdict::Ok, false) if margin == 0 => {
            "Frist gewahrt, am letzten zulässigen Tag".to_owned()
        }
        (VorlaufVerdict::Ok, false) => format!("Frist gewahrt, noch {days} Luft"),
    }
}

/// The rule with its days, a line or two. The first Termin is as far from the one given as the
/// margin says.
fn ruled(
    inquiry: &Inquiry,
    shape: VorlaufShape,
    margin: i32,
    anchor: &Anchor,
) -> Result<Vec<String>, Error> {
    let given = inquiry.anchor()?;
    if is_of_the_termin(shape) {
        let first = given.plus_days(-i64::from(margin)).ok_or(Refusal::LeavesCalendar)?;
        let last = unless_refused(last(shape, given))?
            .map(|last| format!("Spätester Übertragungstag für diesen Termin ist {}.", der(last)));
        return Ok([rule::with_earliest(shape, first, margin)].into_iter().chain(last).collect());
    }
    let (days, months) = (Uebertragungstage::of(shape, given)?, Monatsschritt::of(shape, given)?);
    Ok(vec![rule::with_days(shape, anchor, days, months)])
}

/// Where no Werktag is missing, by how many days: none of them is one.
fn missing(shape: VorlaufShape, days: u32, n: u32) -> String {
    let after_the_anchor =
        matches!(shape, VorlaufShape::LatestWerktageAfter(_) | VorlaufShape::Korridor(_));
    match n {
        0 => format!("Zu spät ist es um {}.", keine_werktage(days)),
        _ if after_the_anchor => format!("Die Nachricht kommt um {} zu spät.", werktage(n)),
        1 => "Es fehlt 1 Werktag.".to_owned(),
        _ => format!("Es fehlen {}.", werktage(n)),
    }
}

/// How far it is to the opening day; nothing where the period ends before it begins. Only a Termin
/// itself may open a period without being a Werktag, and then Werktage lead to another day.
fn too_early(inquiry: &Inquiry, n: u32) -> Result<Option<String>, Error> {
    let (shape, day) = (inquiry.shape()?, inquiry.transmission_day()?);
    let opening = opening(shape, inquiry.anchor()?)?;
    let Some(first) = opening.filter(|_| rule::closes_early(shape).is_none()) else {
        return Ok(None);
    };
    Ok(Some(match n {
        0 => format!("Zu früh ist es um {}.", kalendertage(days(day, first))),
        _ if !is_werktag(first)? => {
            format!("Zu früh ist es um {}.", kalendertage(days(day, first)))
        }
        1 => "Der Zeitraum beginnt am nächsten Werktag.".to_owned(),
        n => format!("Der Zeitraum beginnt erst in {}.", werktagen(n)),
    }))
}

/// From a day to a later one.
fn days(from: Date, to: Date) -> u32 {
    let days = to.day_number().zip(from.day_number()).map(|(to, from)| to - from);
    days.and_then(|days| u32::try_from(days).ok()).unwrap_or_default()
}
