//! Which answers are a yes or a no, and the status that they have with `--status`.

use crate::command::Task;
use crate::outcome::Status;
use mako_fristen_host::{Answer, Call, Content, DayReason, Error, Judgement, Span, VorlaufVerdict};

/// Whether a command has such answers. Of a file some questions do.
pub fn is_of(task: Task) -> bool {
    match task {
        Task::Ask(call) => matches!(
            call.content(),
            Content::Werktag
                | Content::Verdict
                | Content::AbmeldungVerdict
                | Content::Span
                | Content::Ankuendigung
        ),
        Task::BisWann | Task::Fragen => true,
        Task::Kalender | Task::Portfolio => false,
    }
}

/// What an answer ends with. One that is no yes or no is an answer.
pub fn status(call: Call, answer: &Answer) -> Result<Status, Error> {
    Ok(match call.content() {
        Content::Werktag => of(Some(answer.read::<DayReason>(call)?.is_werktag())),
        Content::Verdict => of(in_time(Some(answer.read(call)?))),
        Content::AbmeldungVerdict => of(in_time(answer.read(call)?)),
        Content::Span => of(Some(answer.read::<Span>(call)? != Span::Empty)),
        Content::Ankuendigung => of(answer.read(call)?),
        Content::Date
        | Content::Count
        | Content::Instant
        | Content::GasDue
        | Content::AbmeldungVorlauf => Status::Answered,
    })
}

fn of(yes: Option<bool>) -> Status {
    match yes {
        Some(true) => Status::Answered,
        Some(false) => Status::No,
        None => Status::Neither,
    }
}

/// Whether the Frist was kept; none without a shape.
pub fn in_time(judgement: Option<Judgement>) -> Option<bool> {
    judgement.map(|judgement| judgement.verdict == VorlaufVerdict::Ok)
}
