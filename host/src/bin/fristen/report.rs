//! An answer as JSON. Every answer of a command has the same members, those of a refusal are null:
//! docs/JSON.md lists them.

mod abmeldung;
mod fristen;
mod kalender;
mod read;
pub mod values;
mod vorlauf;

use crate::inquiry::Inquiry;
use crate::json::{Json, Members};
use crate::uebertragung::Uebertragungstage;
use mako_fristen_host::{Answer, Call, Content, Date, Error, Refusal, VorlaufShape};
use std::ffi::OsString;

/// It moves when a member gets another name, type or meaning, or goes; not when one is added.
const VERSION: u32 = 1;

/// What an answer repeats of its question.
#[derive(Debug)]
pub struct Asked<'a> {
    pub call: &'static str,
    /// The arguments, as given.
    pub given: &'a [OsString],
    /// What was read of them.
    pub read: Members,
}

impl Asked<'_> {
    /// The answer, or the refusal, with the content behind it.
    pub fn answered(self, refusal: Json, content: Members) -> Json {
        let given = self.given.iter().map(|argument| Json::text(argument.to_string_lossy()));
        let asked = vec![
            ("version", VERSION.into()),
            ("call", self.call.into()),
            ("arguments", Json::list(given)),
            ("read", Json::Object(self.read)),
            ("refusal", refusal),
        ];
        Json::Object([asked, content].concat())
    }
}

/// What the call filled, and what the host adds.
pub fn answered(inquiry: &Inquiry, given: &[OsString], answer: &Answer) -> Result<Json, Error> {
    let content = content(inquiry, Some(answer))?;
    Ok(asked(inquiry, given)?.answered(Json::Null, content))
}

/// The same members beside a refusal.
pub fn refused(inquiry: &Inquiry, given: &[OsString], refusal: Json) -> Result<Json, Error> {
    Ok(asked(inquiry, given)?.answered(refusal, content(inquiry, None)?))
}

fn asked<'a>(inquiry: &Inquiry, given: &'a [OsString]) -> Result<Asked<'a>, Error> {
    Ok(Asked { call: inquiry.call.name(), given, read: read::of(inquiry)? })
}

/// The transmission days that an anchor allows; none of a refusal.
pub fn bis_wann(
    (shape, anchor): (VorlaufShape, Date),
    given: &[OsString],
    refusal: Json,
    days: Option<Uebertragungstage>,
) -> Json {
    let asked = Asked { call: "bis-wann", given, read: read::of_anchor(shape, anchor) };
    asked.answered(refusal, vec![("transmission_span", values::days(days))])
}

pub fn refusal_json(refusal: Refusal, sentence: &str) -> Json {
    Json::Object(vec![("number", refusal.number().into()), ("text", sentence.into())])
}

/// The members of an answer; null without one.
type Report = fn(&Inquiry, Option<&Answer>) -> Result<Members, Error>;

fn content(inquiry: &Inquiry, answer: Option<&Answer>) -> Result<Members, Error> {
    let of: Report = match inquiry.call.content() {
        Content::Werktag => kalender::day,
        Content::Date => match inquiry.call {
            Call::AddMonths | Call::SubtractMonths => kalender::months,
            Call::BerlinDate | Call::TagDesBeginns => kalender::day_of,
            _ => kalender::step,
        },
        Content::Count => kalender::count,
        Content::Instant => due_or_at(inquiry.call),
        Content::GasDue => fristen::gas,
        Content::Verdict => vorlauf::verdict,
        Content::AbmeldungVerdict => abmeldung::judged,
        Content::Span => vorlauf::spanned,
        Content::AbmeldungVorlauf => abmeldung::case,
        Content::Ankuendigung => abmeldung::ankuendigung,
    };
    of(inquiry, answer)
}

fn due_or_at(call: Call) -> Report {
    match call {
        Call::BerlinAt | Call::BerlinMidnight | Call::EndOfDayBerlin | Call::TagesbeginnUtc => {
            fristen::at
        }
        Call::ContrlDueAt | Call::ContrlDueAtChange => fristen::contrl,
        Call::DeadlineAtWerktage
        | Call::EndOfWerktagAfter
        | Call::NextWerktagAt
        | Call::NthWerktagAt
        | Call::FristDueAt => fristen::shaped,
        _ => fristen::due,
    }
}

fn kind(answer: Option<&Answer>, name: Option<&'static str>) -> [(&'static str, Json); 2] {
    [("kind", answer.map(Answer::kind).into()), ("kind_name", name.into())]
}
