use super::anchor::ZUORDNUNGSENDE;
use super::rule;
use super::vorlauf::verdict;
use crate::ankuendigung::Fenster;
use crate::deutsch::{am, dem, tag};
use crate::inquiry::Inquiry;
use crate::usage::quoted_bytes;
use mako_fristen_host::{AbmeldungVorlauf, BerlinTime, Eeg, Error, Judgement};

/// The reason, the mark where it matters, and the rule of the case, or why it has none.
pub fn heading(inquiry: &Inquiry, case: AbmeldungVorlauf) -> Result<String, Error> {
    let rule = match case.shape() {
        Some(shape) => rule::of(shape, &ZUORDNUNGSENDE, None),
        None => with_a_mark(case, "steht die Frist fest"),
    };
    Ok(format!("{}: {rule}", reason(inquiry, case)?))
}

/// Why a case has no shape; where a mark would give one, what there is with it.
fn with_a_mark(case: AbmeldungVorlauf, there_is: &str) -> String {
    let why = case.beschreibung();
    match case {
        AbmeldungVorlauf::Unbestimmt => {
            format!("{why}\nMit --eeg ja oder --eeg nein {there_is}.")
        }
        _ => why.to_owned(),
    }
}

fn reason(inquiry: &Inquiry, case: AbmeldungVorlauf) -> Result<String, Error> {
    let malo = match (case, inquiry.eeg()?) {
        (AbmeldungVorlauf::AnPruefschritt120, _) => "",
        (_, Eeg::No) => ", keine EEG-Marktlokation",
        (_, Eeg::Yes) => ", EEG-Marktlokation",
        (_, Eeg::Unknown) => ", unbekannt, ob EEG-Marktlokation",
    };
    Ok(format!("Grund {}{malo}", quoted_bytes(&inquiry.reason)))
}

pub fn judged(inquiry: &Inquiry, judged: Option<Judgement>) -> Result<String, Error> {
    let case = inquiry.abmeldung()?;
    let (from, to) = (tag(inquiry.question.date), tag(inquiry.question.date2));
    let reason = reason(inquiry, case)?;
    let what = format!("Übertragungstag {from}, Zuordnungsende {to}, {reason}.");
    match judged {
        Some(given) => verdict(inquiry, given, &ZUORDNUNGSENDE, &what),
        None => Ok(format!(
            "Kein Urteil, also auch nicht „Frist gewahrt“: {what}\n{}",
            with_a_mark(case, "gibt es ein Urteil")
        )),
    }
}

pub fn ankuendigung(inquiry: &Inquiry, in_time: Option<bool>) -> Result<String, Error> {
    let (received, begin) = (inquiry.question.instant, inquiry.question.date);
    let what =
        format!("Eingang {}, Zuordnungsbeginn {}.", am(BerlinTime::of(received)?), tag(begin));
    let Some(in_time) = in_time else {
        return Ok(format!(
            "Weder fristgerecht noch verspätet: {what}\n\
             Der Zuordnungsbeginn liegt nicht nach dem Eingang; dann gilt „unverzüglich“, und ab \
             wann, steht in keiner Nachricht."
        ));
    };
    let window = Fenster::vor(begin)?;
    let werktag = dem(window.werktag);
    if in_time {
        return Ok(format!(
            "Fristgerecht: {what}\n\
             Fristgerecht ist die Ankündigung am letzten Werktag vor dem Zuordnungsbeginn von \
             00:00 bis 13:00 Uhr: am {werktag}."
        ));
    }
    // Who is early may still be in time.
    let (word, is, was) = match window.is_early(received) {
        true => ("Zu früh", "ist", ""),
        false => ("Zu spät", "wäre", " gewesen"),
    };
    Ok(format!(
        "{word}: {what}\n\
         Fristgerecht {is} sie nur am letzten Werktag vor dem Zuordnungsbeginn{was}, am {werktag}, \
         von 00:00 bis 13:00 Uhr."
    ))
}
