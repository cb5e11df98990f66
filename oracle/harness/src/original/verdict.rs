//! Verdicts: of a shape, of a deregistration's reason, of the 13:00 announcement.

use super::{
    day_begun, host_date, margin, months_back, months_on, next_werktag, werktage_back,
    werktage_between, werktage_on, Steps,
};
use crate::{days, instants};
use mako_fristen::abmeldung::AbmeldungVorlauf;
use mako_fristen::vorlauf::{self, VorlaufShape, VorlaufVerdict};
use mako_fristen::HolidayCalendar::BdewMaKo;
use mako_fristen_host::{Answer, Call, Question, Refusal};
use time::Date;

pub(super) fn of_shape(question: &Question, steps: Steps) -> Result<Answer, Refusal> {
    let (day, anchor) = match question.call {
        Call::VorlaufCheckAt => {
            let at = instants::given(question.instant)?;
            let anchor = instants::given(question.instant2)?;
            (mako_fristen::berlin_date(at), day_begun(anchor, question.code2)?)
        }
        _ => (days::given(question.date)?, days::given(question.date2)?),
    };
    verdict(shape(question), day, anchor, steps)
}

/// The bytes are put to the original as text; those that are none become replacement characters,
/// of which no reason has any.
pub(super) fn of_reason(question: &Question, steps: Steps) -> Result<Answer, Refusal> {
    let eeg = [Some(false), Some(true), None][usize::from(question.code)];
    let reason = String::from_utf8_lossy(question.reason.as_bytes());
    let vorlauf = AbmeldungVorlauf::fuer(&reason, eeg);
    if question.call == Call::AbmeldungFuer {
        return Ok(Answer::default().with_kind(match vorlauf {
            AbmeldungVorlauf::TagVorDemLetztenWerktag => 0,
            AbmeldungVorlauf::EinMonat => 1,
            AbmeldungVorlauf::Unbestimmt { .. } => 2,
            AbmeldungVorlauf::AnPruefschritt120 => 3,
        }));
    }
    let (day, anchor) = (days::given(question.date)?, days::given(question.date2)?);
    let original = || vorlauf.check(day, anchor, BdewMaKo);
    match vorlauf.shape() {
        Some(shape) => told(found(shape, day, anchor, steps)?, steps, original),
        None => {
            assert_eq!(original(), None, "{vorlauf:?} has no shape");
            Ok(Answer::default().with_kind(3))
        }
    }
}

pub(super) fn of_announcement(question: &Question, steps: Steps) -> Result<Answer, Refusal> {
    let beginning = days::given(question.date)?;
    let at = instants::given(question.instant)?;
    if at < mako_fristen::berlin_midnight(beginning) {
        werktage_back(beginning, 1, steps)?;
    }
    let kept = vorlauf::eog_ankuendigung_fristgerecht(at, beginning, BdewMaKo);
    Ok(Answer::default().with_kind(kept.map_or(2, u8::from)))
}

/// The shape of the code and the counts.
pub(super) fn shape(question: &Question) -> VorlaufShape {
    let (n, n2) = (question.n, question.n2);
    match question.code {
        0 => VorlaufShape::LatestWerktageBefore(n),
        1 => VorlaufShape::WindowWerktageBefore { earliest: n, latest: n2 },
        2 => VorlaufShape::LatestWerktageAfter(n),
        3 => VorlaufShape::EarliestWerktageAfter(n),
        4 => VorlaufShape::Korridor(n),
        5 => VorlaufShape::TagVorDemLetztenWerktagVor,
        6 => VorlaufShape::LatestMonateBefore(n),
        _ => VorlaufShape::LatestMonateUndWerktageBefore { monate: n, werktage: n2 },
    }
}

pub(super) fn verdict(
    shape: VorlaufShape,
    day: Date,
    anchor: Date,
    steps: Steps,
) -> Result<Answer, Refusal> {
    let found = found(shape, day, anchor, steps)?;
    told(found, steps, || Some(shape.check(day, anchor, BdewMaKo)))
}

/// The original's own verdict; with steps from the list, the one that is found. With either the
/// margin that is found.
///
/// # Panics
///
/// Where the original's verdict is another.
fn told(
    (found, margin): (Found, i32),
    steps: Steps,
    original: impl FnOnce() -> Option<VorlaufVerdict>,
) -> Result<Answer, Refusal> {
    let verdict = match steps {
        Steps::Listed => found.counted(steps),
        Steps::Walked(_) => original().expect("a verdict of a shape"),
    };
    assert!(found.is(verdict), "{found:?} is found, and the verdict is {verdict:?}");
    Ok(margin::told_in(answer(verdict)?, margin))
}

fn answer(verdict: VorlaufVerdict) -> Result<Answer, Refusal> {
    Ok(match verdict {
        VorlaufVerdict::Ok => Answer::default(),
        VorlaufVerdict::TooLate { shortfall_wt, earliest_possible } => {
            let date = host_date(earliest_possible)?;
            Answer::default().with_kind(1).with_count(shortfall_wt).with_date(date)
        }
        VorlaufVerdict::TooEarly { excess_wt } => {
            Answer::default().with_kind(2).with_count(excess_wt)
        }
    })
}

/// A verdict before its Werktage are counted: after the first day, up to and with the second.
#[derive(Clone, Copy, Debug)]
enum Found {
    Ok,
    TooLate { counted: (Date, Date), earliest_possible: Date },
    TooEarly { counted: (Date, Date) },
}

impl Found {
    fn is(self, verdict: VorlaufVerdict) -> bool {
        match (self, verdict) {
            (
                Found::TooLate { earliest_possible: found, .. },
                VorlaufVerdict::TooLate { earliest_possible, .. },
            ) => found == earliest_possible,
            (Found::Ok, VorlaufVerdict::Ok)
            | (Found::TooEarly { .. }, VorlaufVerdict::TooEarly { .. }) => true,
            _ => false,
        }
    }

    fn counted(self, steps: Steps) -> VorlaufVerdict {
        let count = |(from, to)| werktage_between(from, to, steps);
        match self {
            Found::Ok => VorlaufVerdict::Ok,
            Found::TooLate { counted, earliest_possible } => {
                VorlaufVerdict::TooLate { shortfall_wt: count(counted), earliest_possible }
            }
            Found::TooEarly { counted } => VorlaufVerdict::TooEarly { excess_wt: count(counted) },
        }
    }
}

/// What `check` finds for the shape, with the functions that it has for its dates and under its
/// conditions, and the margin: the date after which it finds a day too late, minus that day. A date
/// that leaves the calendar is refusal 8, where `check` goes on.
fn found(
    shape: VorlaufShape,
    day: Date,
    anchor: Date,
    steps: Steps,
) -> Result<(Found, i32), Refusal> {
    let back = |n| werktage_back(anchor, n, steps);
    let on = |date, n| werktage_on(date, n, steps);
    match shape {
        VorlaufShape::LatestWerktageBefore(n) => not_after(back(n)?, day, || on(day, n)),
        VorlaufShape::WindowWerktageBefore { earliest, latest } => {
            let (opens, closes) = (back(earliest)?, back(latest)?);
            not_before(opens, closes, day, || on(day, latest))
        }
        VorlaufShape::LatestWerktageAfter(n) => not_after(on(anchor, n)?, day, || Ok(anchor)),
        VorlaufShape::EarliestWerktageAfter(n) => {
            let earliest_possible = on(day, n)?;
            not_after(anchor, earliest_possible, || Ok(earliest_possible))
        }
        VorlaufShape::Korridor(n) => {
            let (opens, closes) = (back(n)?, on(anchor, n)?);
            not_before(opens, closes, day, || Ok(opens))
        }
        VorlaufShape::TagVorDemLetztenWerktagVor => {
            let closes = days::before(back(1)?)?;
            not_after(closes, day, || days::after(next_werktag(days::after(day)?)?))
        }
        VorlaufShape::LatestMonateBefore(n) => {
            let (closes, earliest_possible) = (months_back(anchor, n)?, months_on(day, n)?);
            not_after(closes, day, || Ok(earliest_possible))
        }
        VorlaufShape::LatestMonateUndWerktageBefore { monate, werktage } => {
            let closes = werktage_back(months_back(anchor, monate)?, werktage, steps)?;
            let earliest_possible = months_on(on(day, werktage)?, monate)?;
            not_after(closes, day, || Ok(earliest_possible))
        }
    }
}

/// Ok for a day up to the last, else too late by the Werktage since.
fn not_after(
    last: Date,
    day: Date,
    earliest_possible: impl FnOnce() -> Result<Date, Refusal>,
) -> Result<(Found, i32), Refusal> {
    let margin = margin::days(last, day);
    if day <= last {
        return Ok((Found::Ok, margin));
    }
    let earliest_possible = earliest_possible()?;
    Ok((Found::TooLate { counted: (last, day), earliest_possible }, margin))
}

/// Too early for a day before the first, by the Werktage until then; else by the last.
fn not_before(
    first: Date,
    last: Date,
    day: Date,
    earliest_possible: impl FnOnce() -> Result<Date, Refusal>,
) -> Result<(Found, i32), Refusal> {
    if day < first {
        return Ok((Found::TooEarly { counted: (day, first) }, margin::days(last, day)));
    }
    not_after(last, day, earliest_possible)
}
