use super::values::window;
use super::vorlauf::judged_as;
use super::{kind, Members};
use crate::ankuendigung::Fenster;
use crate::inquiry::Inquiry;
use crate::json::Json;
use crate::kinds;
use mako_fristen_host::{AbmeldungVorlauf, Answer, Error, Judgement};

/// The case of a deregistration, and its shape.
pub fn case(inquiry: &Inquiry, answer: Option<&Answer>) -> Result<Members, Error> {
    let case: Option<AbmeldungVorlauf> =
        answer.map(|given| given.read(inquiry.call)).transpose()?;
    let [number, name] = kind(answer, case.map(kinds::case));
    Ok(vec![number, name, ("shape", shape(case))])
}

/// A verdict, with the case whose shape it is by.
pub fn judged(inquiry: &Inquiry, answer: Option<&Answer>) -> Result<Members, Error> {
    let judged: Option<Option<Judgement>> =
        answer.map(|given| given.read(inquiry.call)).transpose()?;
    let case = answer.map(|_| inquiry.abmeldung()).transpose()?;
    let added = vec![("case", case.map(kinds::case).into()), ("shape", shape(case))];
    Ok([judged_as(inquiry, answer, judged.flatten())?, added].concat())
}

fn shape(case: Option<AbmeldungVorlauf>) -> Json {
    case.and_then(AbmeldungVorlauf::shape).and_then(kinds::vorlauf).into()
}

/// Where it is neither yes nor no, there is no window: another rule applies.
pub fn ankuendigung(inquiry: &Inquiry, answer: Option<&Answer>) -> Result<Members, Error> {
    let given: Option<Option<bool>> = answer.map(|given| given.read(inquiry.call)).transpose()?;
    let in_time = given.flatten();
    let fenster = in_time.map(|_| Fenster::vor(inquiry.question.date)).transpose()?;
    let received = inquiry.question.instant;
    let [number, name] = kind(answer, given.map(kinds::ankuendigung));
    let window = fenster.map(|fenster| window(fenster.from, fenster.to)).transpose()?;
    Ok(vec![
        number,
        name,
        ("in_time", in_time.into()),
        ("too_early", fenster.map(|fenster| fenster.is_early(received)).into()),
        ("too_late", fenster.map(|fenster| fenster.is_late(received)).into()),
        ("last_werktag", fenster.map(|fenster| fenster.werktag).into()),
        ("window", window.into()),
    ])
}
