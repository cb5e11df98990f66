//! The transmission days that an anchor allows.

use mako_fristen_host::{
    is_werktag, sub_werktage, subtract_months, Date, Error, Judgement, Refusal, VorlaufShape,
};

/// From the first, if there is one, to the last; none of them if the first is later.
#[derive(Clone, Copy, Debug, PartialEq, Eq)]
pub struct Uebertragungstage {
    pub first: Option<Date>,
    pub last: Date,
}

impl Uebertragungstage {
    /// # Errors
    ///
    /// [`Refusal::NoDate`]; [`Refusal::LeavesCalendar`], if an end does so.
    pub fn of(shape: VorlaufShape, anchor: Date) -> Result<Uebertragungstage, Error> {
        Ok(Uebertragungstage { first: opening(shape, anchor)?, last: last(shape, anchor)? })
    }

    pub fn is_empty(self) -> bool {
        self.first.is_some_and(|first| first > self.last)
    }
}

/// The step of a shape by months, from the anchor.
#[derive(Clone, Copy, Debug, PartialEq, Eq)]
pub struct Monatsschritt {
    pub from: Date,
    pub to: Date,
}

impl Monatsschritt {
    /// None of a shape without months.
    ///
    /// # Errors
    ///
    /// None where there are transmission days.
    pub fn of(shape: VorlaufShape, anchor: Date) -> Result<Option<Monatsschritt>, Error> {
        match shape {
            VorlaufShape::LatestMonateBefore(n @ 1..)
            | VorlaufShape::LatestMonateUndWerktageBefore { monate: n @ 1.., .. } => {
                let to = subtract_months(anchor, n)?;
                Ok(Some(Monatsschritt { from: anchor, to }))
            }
            _ => Ok(None),
        }
    }
}

/// The first day on which a message is not too early; none if it never is.
pub fn opening(shape: VorlaufShape, anchor: Date) -> Result<Option<Date>, Error> {
    match shape {
        VorlaufShape::WindowWerktageBefore { earliest: n, .. } | VorlaufShape::Korridor(n) => {
            sub_werktage(anchor, n).map(Some)
        }
        _ => Ok(None),
    }
}

/// The last day on which a message is not too late. The margin of any transmission day leads to it;
/// for `EarliestWerktageAfter` it is the anchor's, and n Werktage have to lie behind the day.
pub fn last(shape: VorlaufShape, anchor: Date) -> Result<Date, Error> {
    if let VorlaufShape::EarliestWerktageAfter(n) = shape {
        return before_werktage(anchor, n);
    }
    // From the calendar's first day on the verdict may need a day behind its last.
    let margin = |day| shape.check(day, anchor).map(|Judgement { margin, .. }| (day, margin));
    let (day, margin) = margin(anchor).or_else(|_| margin(Date::FIRST))?;
    Ok(day.plus_days(margin.into()).ok_or(Refusal::LeavesCalendar)?)
}

/// The last day with n Werktage behind it up to and including the anchor.
fn before_werktage(anchor: Date, n: u32) -> Result<Date, Error> {
    let Some(before) = n.checked_sub(1) else {
        return is_werktag(anchor).map(|_| anchor);
    };
    let first = sub_werktage(anchor, if is_werktag(anchor)? { before } else { n })?;
    let day = first.plus_days(-1).filter(|day| day.is_in_calendar());
    Ok(day.ok_or(Refusal::LeavesCalendar)?)
}

#[cfg(test)]
mod tests {
    use super::*;
    use mako_fristen_host::VorlaufVerdict;

    fn shapes(n: u32) -> [VorlaufShape; 9] {
        [
            VorlaufShape::LatestWerktageBefore(n),
            VorlaufShape::WindowWerktageBefore { earliest: n + 3, latest: n },
            VorlaufShape::WindowWerktageBefore { earliest: 0, latest: n },
            VorlaufShape::LatestWerktageAfter(n),
            VorlaufShape::EarliestWerktageAfter(n),
            VorlaufShape::Korridor(n),
            VorlaufShape::TagVorDemLetztenWerktagVor,
            VorlaufShape::LatestMonateBefore(n),
            VorlaufShape::LatestMonateUndWerktageBefore { monate: n, werktage: 2 },
        ]
    }

    /// Every anchor of two years, against the verdict of every day about it.
    #[test]
    fn a_day_is_too_late_behind_the_last_and_too_early_before_the_first() {
        let days = |n| (0..400).map(move |day| (n, day));
        for (n, day) in [0, 1, 2, 5].into_iter().flat_map(days) {
            let anchor = Date::new(2026, 1, 1).plus_days(day).expect("a date");
            for shape in shapes(n) {
                let days = Uebertragungstage::of(shape, anchor).expect("in the calendar");
                let verdict =
                    |day: Date| shape.check(day, anchor).expect("in the calendar").verdict;
                let late = |day| matches!(verdict(day), VorlaufVerdict::TooLate { .. });
                let early = |day| matches!(verdict(day), VorlaufVerdict::TooEarly { .. });
                let beside = |date: Date, days| date.plus_days(days).expect("a date");
                if !days.is_empty() {
                    assert_eq!(verdict(days.last), VorlaufVerdict::Ok, "{shape:?} {anchor}");
                    assert!(late(beside(days.last, 1)), "{shape:?} {anchor}");
                }
                if let Some(first) = days.first {
                    assert!(!early(first) && early(beside(first, -1)), "{shape:?} {anchor}");
                }
            }
        }
    }

    #[test]
    fn an_end_outside_the_calendar_is_refused() {
        let refused = Err(Refusal::LeavesCalendar.into());
        for shape in [
            VorlaufShape::LatestWerktageBefore(1),
            VorlaufShape::WindowWerktageBefore { earliest: 1, latest: 0 },
            VorlaufShape::EarliestWerktageAfter(1),
            VorlaufShape::Korridor(1),
            VorlaufShape::LatestMonateBefore(1),
        ] {
            assert_eq!(Uebertragungstage::of(shape, Date::FIRST), refused, "{shape:?}");
        }
        let months = VorlaufShape::LatestMonateBefore(1);
        assert_eq!(last(months, Date::LAST), Ok(Date::new(2899, 11, 30)));
        let no_date = Err(Refusal::NoDate.into());
        assert_eq!(last(months, Date::new(2026, 2, 29)), no_date);
        assert_eq!(last(VorlaufShape::EarliestWerktageAfter(0), Date::new(2026, 2, 29)), no_date);
    }
}
