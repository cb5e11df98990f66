use super::{kind, values, Members};
use crate::inquiry::Inquiry;
use crate::{ja_nein, kinds};
use mako_fristen_host::{Answer, Error, Judgement, Span, VorlaufVerdict};

pub fn verdict(inquiry: &Inquiry, answer: Option<&Answer>) -> Result<Members, Error> {
    let judged: Option<Judgement> = answer.map(|given| given.read(inquiry.call)).transpose()?;
    judged_as(inquiry, answer, judged)
}

/// `judged` is none of a refusal, and where there is no shape.
pub fn judged_as(
    inquiry: &Inquiry,
    answer: Option<&Answer>,
    judged: Option<Judgement>,
) -> Result<Members, Error> {
    let [number, name] = kind(answer, answer.map(|_| kinds::verdict(judged)));
    let (count, named) = judged.map_or((None, None), |judged| match judged.verdict {
        VorlaufVerdict::Ok => (Some(0), None),
        VorlaufVerdict::TooEarly { excess_wt } => (Some(excess_wt), None),
        VorlaufVerdict::TooLate { shortfall_wt, earliest_possible } => {
            (Some(shortfall_wt), Some(earliest_possible))
        }
    });
    let span = judged.map(|_| inquiry.allowed()).transpose()?.flatten();
    let days = judged.map(|_| inquiry.transmission_days()).transpose()?.flatten();
    let transmission_day = answer.map(|_| inquiry.transmission_day()).transpose()?;
    Ok(vec![
        number,
        name,
        ("in_time", ja_nein::in_time(judged).into()),
        ("count", count.into()),
        ("margin", judged.map(|judged| judged.margin).into()),
        ("date", named.into()),
        ("date_acceptable", named.map(|date| inquiry.accepts(date)).transpose()?.into()),
        ("transmission_day", transmission_day.into()),
        ("anchor", answer.map(|_| inquiry.anchor()).transpose()?.into()),
        ("span", values::span(span)),
        ("transmission_span", values::days(days)),
    ])
}

pub fn spanned(inquiry: &Inquiry, answer: Option<&Answer>) -> Result<Members, Error> {
    let span: Option<Span> = answer.map(|given| given.read(inquiry.call)).transpose()?;
    let [number, name] = kind(answer, span.map(kinds::span));
    Ok(vec![number, name, ("span", values::span(span))])
}
