use super::values::{skipped, weekday};
use super::{kind, Members};
use crate::inquiry::Inquiry;
use crate::sentences::cut_day;
use crate::skipped::{self, Closed};
use mako_fristen_host::{Answer, Date, DayReason, Error, WerktageBetween};

pub fn day(inquiry: &Inquiry, answer: Option<&Answer>) -> Result<Members, Error> {
    let reason: Option<DayReason> = answer.map(|given| given.read(inquiry.call)).transpose()?;
    let date = inquiry.question.date;
    let also = reason.map(|reason| Closed::also(date, reason)).transpose()?.flatten();
    let date = reason.map(|_| date);
    let [number, name] = kind(answer, reason.map(DayReason::name));
    Ok(vec![
        ("date", date.into()),
        ("weekday", weekday(date)),
        ("werktag", reason.map(DayReason::is_werktag).into()),
        number,
        name,
        ("also", also.map(Closed::name).into()),
    ])
}

/// A step by Werktage.
pub fn step(inquiry: &Inquiry, answer: Option<&Answer>) -> Result<Members, Error> {
    let to: Option<Date> = answer.map(|given| given.read(inquiry.call)).transpose()?;
    let passed = to.map(|to| skipped::by(inquiry, to)).transpose()?;
    Ok([date(to), vec![("skipped", passed.map(|passed| skipped(passed.kinds)).into())]].concat())
}

/// A step by months.
pub fn months(inquiry: &Inquiry, answer: Option<&Answer>) -> Result<Members, Error> {
    let to: Option<Date> = answer.map(|given| given.read(inquiry.call)).transpose()?;
    let cut = to.and_then(|to| cut_day(inquiry.question.date, to));
    Ok([date(to), vec![("cut_day", cut.into())]].concat())
}

/// The day of an instant.
pub fn day_of(inquiry: &Inquiry, answer: Option<&Answer>) -> Result<Members, Error> {
    answer.map(|given| given.read(inquiry.call)).transpose().map(date)
}

fn date(date: Option<Date>) -> Members {
    vec![("date", date.into()), ("weekday", weekday(date))]
}

pub fn count(inquiry: &Inquiry, answer: Option<&Answer>) -> Result<Members, Error> {
    let counted: Option<WerktageBetween> =
        answer.map(|given| given.read(inquiry.call)).transpose()?;
    let later = inquiry.question.date2 > inquiry.question.date;
    Ok(vec![
        ("count", counted.map(|counted| counted.werktage).into()),
        ("days_tested", counted.map(|counted| counted.days_tested).into()),
        ("later", counted.map(|_| later).into()),
    ])
}
