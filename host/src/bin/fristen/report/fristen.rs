use super::values::{instant, window};
use super::{kind, Members};
use crate::corner::Corner;
use crate::inquiry::Inquiry;
use crate::umstellung::Umstellung;
use crate::{kinds, labels};
use mako_fristen_host::{Answer, Call, Error, GasDue, GasProzess, Instant};

/// An instant that is none by which something is due.
pub fn at(inquiry: &Inquiry, answer: Option<&Answer>) -> Result<Members, Error> {
    let given: Option<Instant> = answer.map(|given| given.read(inquiry.call)).transpose()?;
    Ok(vec![("instant", given.map(instant).transpose()?.into())])
}

/// A due instant.
pub fn due(inquiry: &Inquiry, answer: Option<&Answer>) -> Result<Members, Error> {
    let label = answer.and_then(|_| labels::of(inquiry.call));
    Ok([at(inquiry, answer)?, vec![("label", label.into())]].concat())
}

pub fn gas(inquiry: &Inquiry, answer: Option<&Answer>) -> Result<Members, Error> {
    let given: Option<GasDue> = answer.map(|given| given.read(inquiry.call)).transpose()?;
    let process = given.map(|given| given.kind);
    let [number, name] = kind(answer, process.map(kinds::gas));
    Ok(vec![
        number,
        name,
        ("initial", process.map(|process| process == GasProzess::Initialprozess).into()),
        ("instant", given.map(|given| instant(given.due)).transpose()?.into()),
        ("label", process.map(GasProzess::label).into()),
    ])
}

/// Of a shape: where the due instant is not what its words say.
pub fn shaped(inquiry: &Inquiry, answer: Option<&Answer>) -> Result<Members, Error> {
    let given: Option<Instant> = answer.map(|given| given.read(inquiry.call)).transpose()?;
    let corner = match given {
        Some(due) => Corner::of(inquiry.frist()?, inquiry.question.instant, due)?,
        None => None,
    };
    Ok([due(inquiry, answer)?, vec![("corner", corner.map(Corner::name).into())]].concat())
}

/// Whether a window has moved the due instant, from where, and the window. Without a change day it
/// is there only if it has.
pub fn contrl(inquiry: &Inquiry, answer: Option<&Answer>) -> Result<Members, Error> {
    let question = &inquiry.question;
    let given: Option<Instant> = answer.map(|given| given.read(inquiry.call)).transpose()?;
    let umstellung = match given {
        Some(_) if inquiry.call == Call::ContrlDueAtChange => Some(Umstellung::of(question)?),
        Some(due) => Umstellung::that_moved(question, due)?,
        None => None,
    };
    let before = umstellung.map(|umstellung| umstellung.otherwise).or(given);
    let window = umstellung.map(|Umstellung { from, to, .. }| window(from, to)).transpose()?;
    let added = vec![
        ("moved", given.map(|_| before != given).into()),
        ("due_before_tolerance", before.map(instant).transpose()?.into()),
        ("window", window.into()),
    ];
    Ok([due(inquiry, answer)?, added].concat())
}
