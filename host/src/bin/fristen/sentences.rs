//! Answers as they are read out. A sentence may ask further calls, which refuse nothing that the
//! answered call took.

mod abmeldung;
pub mod anchor;
mod berlin;
mod fristen;
mod kalender;
pub mod rule;
pub mod skipped;
mod vorlauf;

pub use kalender::cut_day;

use crate::deutsch::zweimal;
use crate::inquiry::Inquiry;
use mako_fristen_host::{Answer, BerlinTime, Call, Error, Parameter};

/// The clock time behind it is hard to follow by ear.
const ENDET: &str = "endet in Berlin eine Nanosekunde vor Mitternacht,";

/// One or more sentences, a line each where they are long.
pub fn of(inquiry: &Inquiry, answer: &Answer) -> Result<String, Error> {
    let lines = [vec![said(inquiry, answer)?], twice(inquiry)?].concat();
    Ok(lines.join("\n"))
}

/// Of each instant that was given by a time which Berlin's clock shows twice: which of both it is.
fn twice(inquiry: &Inquiry) -> Result<Vec<String>, Error> {
    let (first, second) = (inquiry.question.instant, inquiry.question.instant2);
    let instants = [(Parameter::Instant, first), (Parameter::SecondInstant, second)];
    let twice = |(parameter, _): &_| inquiry.twice.contains(&inquiry.label(*parameter));
    let twice = instants.into_iter().filter(twice);
    twice.map(|(_, instant)| Ok(zweimal(BerlinTime::of(instant)?))).collect()
}

fn said(inquiry: &Inquiry, answer: &Answer) -> Result<String, Error> {
    let call = inquiry.call;
    match call {
        Call::IsWerktag => kalender::day(inquiry, answer.read(call)?),
        Call::NextWerktag => kalender::next(inquiry, answer.read(call)?),
        Call::AddWerktage => kalender::step(inquiry, answer.read(call)?, "nach"),
        Call::SubWerktage => kalender::step(inquiry, answer.read(call)?, "vor"),
        Call::WerktageBetween => Ok(kalender::between(inquiry, answer.read(call)?)),
        Call::AddMonths => Ok(kalender::months(inquiry, answer.read(call)?, "nach")),
        Call::SubtractMonths => Ok(kalender::months(inquiry, answer.read(call)?, "vor")),
        Call::BerlinAt => berlin::at(answer.read(call)?),
        Call::BerlinMidnight => berlin::edge(inquiry, answer.read(call)?, "beginnt in Berlin"),
        Call::EndOfDayBerlin => berlin::edge(inquiry, answer.read(call)?, ENDET),
        Call::TagesbeginnUtc => berlin::beginning(inquiry, answer.read(call)?),
        Call::BerlinDate => berlin::day(inquiry, answer.read(call)?),
        Call::TagDesBeginns => berlin::day_begun(inquiry, answer.read(call)?),
        Call::ContrlDueAt => fristen::contrl(inquiry, answer.read(call)?),
        Call::ContrlDueAtChange => fristen::contrl_change(inquiry, answer.read(call)?),
        Call::AperakStromDueAt => fristen::strom(inquiry, answer.read(call)?, "UTILMD oder ORDERS"),
        Call::AperakStromAllgemeinDueAt => {
            fristen::strom(inquiry, answer.read(call)?, "eine andere Nachricht")
        }
        Call::AperakGasFolgeprozessDueAt
        | Call::AperakGasInitialprozessDueAt
        | Call::AperakGasDueAt => fristen::gas(inquiry, answer.read(call)?),
        Call::AddHours => fristen::hours(inquiry, answer.read(call)?),
        Call::DeadlineAtWerktage
        | Call::EndOfWerktagAfter
        | Call::NextWerktagAt
        | Call::NthWerktagAt
        | Call::FristDueAt => fristen::shaped(inquiry, answer.read(call)?),
        Call::VorlaufCheck | Call::VorlaufCheckAt => vorlauf::judged(inquiry, answer.read(call)?),
        Call::VorlaufSpan => vorlauf::spanned(inquiry, answer.read(call)?),
        Call::AbmeldungFuer => abmeldung::heading(inquiry, answer.read(call)?),
        Call::AbmeldungCheck => abmeldung::judged(inquiry, answer.read(call)?),
        Call::EogAnkuendigungFristgerecht => abmeldung::ankuendigung(inquiry, answer.read(call)?),
    }
}

#[cfg(test)]
mod tests {
    use super::*;
    use crate::{report, short};

    /// A kind that no call has, in each form.
    #[test]
    fn an_answer_that_cannot_be_read_has_no_sentence() {
        for call in Call::ALL {
            let inquiry = Inquiry::new(call);
            let answer = Answer::default().with_kind(23);
            let unreadable = |error: Error| matches!(error, Error::Unreadable(u) if u.call == call);
            assert!(of(&inquiry, &answer).is_err_and(unreadable), "{call:?}");
            assert!(report::answered(&inquiry, &[], &answer).is_err_and(unreadable), "{call:?}");
            assert!(short::of(&inquiry, &answer).is_err_and(unreadable), "{call:?}");
        }
    }
}
