//! The bare value of an answer, as a script takes it.

use crate::inquiry::Inquiry;
use crate::kinds;
use crate::report::values::berlin;
use crate::uebertragung::Uebertragungstage;
use mako_fristen_host::{
    Answer, BerlinTime, Content, Date, DayReason, Error, GasDue, Instant, Span, WerktageBetween,
};

pub fn of(inquiry: &Inquiry, answer: &Answer) -> Result<String, Error> {
    let call = inquiry.call;
    Ok(match call.content() {
        Content::Werktag => answer.read::<DayReason>(call)?.to_string(),
        Content::Date => answer.read::<Date>(call)?.to_string(),
        Content::Count => answer.read::<WerktageBetween>(call)?.werktage.to_string(),
        Content::Instant => instant(answer.read(call)?)?,
        Content::GasDue => instant(answer.read::<GasDue>(call)?.due)?,
        Content::Verdict => kinds::verdict(Some(answer.read(call)?)).to_owned(),
        Content::AbmeldungVerdict => kinds::verdict(answer.read(call)?).to_owned(),
        Content::Span => span(answer.read(call)?),
        Content::AbmeldungVorlauf => kinds::case(answer.read(call)?).to_owned(),
        Content::Ankuendigung => kinds::ankuendigung(answer.read(call)?).to_owned(),
    })
}

fn instant(instant: Instant) -> Result<String, Error> {
    BerlinTime::of(instant).map(berlin)
}

/// An interval of ISO 8601; nothing for none.
fn span(span: Span) -> String {
    match span {
        Span::From(first) => format!("{first}/.."),
        Span::Between(first, last) => format!("{first}/{last}"),
        Span::Empty => String::new(),
    }
}

/// The last transmission day; nothing if there is none.
pub fn bis_wann(days: Uebertragungstage) -> String {
    match days.is_empty() {
        true => String::new(),
        false => days.last.to_string(),
    }
}
