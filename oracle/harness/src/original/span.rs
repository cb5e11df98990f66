//! The span of anchors, which the original does not have: by document 01's words, in steps of the
//! original, and held against the original's verdicts.

use super::verdict::{shape, verdict};
use super::{
    contradicted, expected, host_date, known, months_on, next_werktag, werktage, werktage_back,
    werktage_on, Expected, Panic, Steps, WALKED,
};
use crate::days::{self, DAYS};
use mako_fristen::vorlauf::VorlaufShape;
use mako_fristen::HolidayCalendar::BdewMaKo;
use mako_fristen_host::{Answer, Question, Refusal};
use time::Date;

/// How many anchors before the first day and after the last are held against their verdicts.
const AROUND: u32 = 12;

pub(super) fn of_shape(question: &Question, steps: Steps) -> Result<Answer, Refusal> {
    let (first, last) = ends(shape(question), days::given(question.date)?, steps)?;
    let from = Answer::default().with_date(host_date(first)?);
    Ok(match last {
        None => from,
        Some(last) if first <= last => from.with_kind(1).with_last_date(host_date(last)?),
        Some(_) => Answer::default().with_kind(2),
    })
}

/// The span by its words, if the verdicts bear it out: of the anchors around, every one whose
/// verdict is not refused is Ok exactly if it lies in the span. Else a kind that no call has.
///
/// # Errors
///
/// A panic that stands for no refusal.
pub fn expected_of_the_verdicts(question: &Question) -> Expected {
    let Ok(day) = days::given(question.date) else { return expected(question) };
    let Ok((first, last)) = known(|| ends(shape(question), day, WALKED))? else {
        return expected(question);
    };
    let end = last.unwrap_or(first);
    let from = days::index(first.min(end)).saturating_sub(AROUND);
    let to = (days::index(first.max(end)) + AROUND).min(DAYS - 1);
    let agrees = |anchor: Date| -> Result<bool, Panic> {
        Ok(match known(|| verdict(shape(question), day, anchor, WALKED))? {
            Ok(answer) => {
                let inside = first <= anchor && last.is_none_or(|last| anchor <= last);
                (answer.kind() == 0) == inside
            }
            Err(_) => true,
        })
    };
    for anchor in (from..=to).map(days::day) {
        if !agrees(anchor)? {
            return Ok(contradicted());
        }
    }
    expected(question)
}

/// The first day, and the last where there is one; in an empty span the first is the later.
fn ends(shape: VorlaufShape, day: Date, steps: Steps) -> Result<(Date, Option<Date>), Refusal> {
    let back = |n| werktage_back(day, n, steps);
    let on = |n| werktage_on(day, n, steps);
    let after = |n| after_werktage(day, n, steps);
    Ok(match shape {
        VorlaufShape::LatestWerktageBefore(n) => (after(n)?, None),
        VorlaufShape::WindowWerktageBefore { earliest, latest } => {
            (after(latest)?, Some(on(earliest)?))
        }
        VorlaufShape::LatestWerktageAfter(n) => (back(n)?, None),
        VorlaufShape::EarliestWerktageAfter(n) => (on(n)?, None),
        VorlaufShape::Korridor(n) => (back(n)?, Some(on(n)?)),
        VorlaufShape::TagVorDemLetztenWerktagVor => {
            (days::after(next_werktag(days::after(day)?)?)?, None)
        }
        VorlaufShape::LatestMonateBefore(n) => (after_months(n, day)?, None),
        VorlaufShape::LatestMonateUndWerktageBefore { monate, werktage } => {
            (after_months(monate, after(werktage)?)?, None)
        }
    })
}

/// W(n): the day for 0, else the day after the n-th Werktag on or after it.
fn after_werktage(day: Date, n: u32, steps: Steps) -> Result<Date, Refusal> {
    match steps {
        Steps::Walked(_) => after_walk(day, n),
        Steps::Listed => werktage::after(day, n),
    }
}

fn after_walk(mut day: Date, n: u32) -> Result<Date, Refusal> {
    let mut left = n;
    while left > 0 {
        left -= u32::from(mako_fristen::is_werktag(day, BdewMaKo));
        day = days::after(day)?;
    }
    Ok(day)
}

/// M(m, d): the day and so many months, or the first of the next month if its day was cut.
fn after_months(months: u32, day: Date) -> Result<Date, Refusal> {
    let shifted = months_on(day, months)?;
    if shifted.day() == day.day() {
        Ok(shifted)
    } else {
        days::after(shifted)
    }
}
