//! What the 32 bytes of an answer say, in the words of document 01, and of document 02 for the day
//! test, the count and the margin: which kinds there are, and which fields each fills. Unused fields
//! are zero.
//!
//! | content | kind | fills |
//! |---|---|---|
//! | day test | 0 Werktag, 1 Saturday, 2 Sunday, 3 to 22 the holiday | |
//! | step, day of an instant | 0 | date |
//! | count | 0 | count, days tested |
//! | instant | 0 | instant |
//! | Gas due instant | 0 follow-up, 1 initial process; its own in the call of either | instant |
//! | verdict | 0 Ok | margin |
//! | | 1 TooLate | count, date, margin |
//! | | 2 TooEarly | count, margin |
//! | verdict on a deregistration | as a verdict; 3 no shape | |
//! | span | 0 no last day | date |
//! | | 1 both | date, last date |
//! | | 2 empty | |
//! | deregistration | 0 to 3, the case | |
//! | announcement | 0 no, 1 yes, 2 neither | |
//!
//! A refused call has kind 0 too, which is a Werktag's: the refusal number is read first. The days
//! tested and the last date have the same bytes, 24 to 27.
//!
//! A content is read by the kind, and then written again: where that does not give the very fields
//! that came, they say something that this version does not know
//! ([`Answer::read`](crate::Answer::read)).

use crate::fields::Fields;
use crate::{
    AbmeldungVorlauf, Call, Date, DayReason, GasDue, GasProzess, Instant, Judgement, Span,
    VorlaufVerdict, WerktageBetween,
};

/// What the answers of a call hold.
#[derive(Clone, Copy, Debug, PartialEq, Eq, Hash)]
pub enum Content {
    /// Whether a day is a Werktag, and why not: a [`DayReason`].
    Werktag,
    /// A [`Date`]: of a step, or the day of an instant.
    Date,
    /// A count, and how many days it tested: a [`WerktageBetween`].
    Count,
    /// An [`Instant`]: of a clock on a date, or a due instant.
    Instant,
    /// A [`GasDue`].
    GasDue,
    /// A verdict and its margin: a [`Judgement`].
    Verdict,
    /// The same on a deregistration: an `Option<Judgement>`, none if it has no shape.
    AbmeldungVerdict,
    /// A [`Span`].
    Span,
    /// An [`AbmeldungVorlauf`].
    AbmeldungVorlauf,
    /// Whether an announcement came in time: an `Option<bool>`, none if neither yes nor no.
    Ankuendigung,
}

/// A type that answers are read as. Only the types that [`Content`] names are.
pub trait FromAnswer: Sized {
    /// Which answers are read as this type.
    const CONTENT: Content;

    /// By the kind and the fields that it fills; the others are not looked at. None for a kind that
    /// the documents do not have for the call, for a date or an instant outside the calendar, for days
    /// tested that no two dates have, and for a margin that its verdict cannot have.
    fn read(fields: &Fields, call: Call) -> Option<Self>;

    /// The fields that the documents have for it.
    fn written(&self) -> Fields;
}

/// None outside the calendar.
fn in_calendar(date: Date) -> Option<Date> {
    Some(date).filter(|date| date.is_in_calendar())
}

/// The same of an instant.
fn at_in_calendar(instant: Instant) -> Option<Instant> {
    Some(instant).filter(|instant| instant.is_in_calendar())
}

fn of_kind(kind: u8) -> Fields {
    Fields { kind, ..Fields::default() }
}

impl FromAnswer for DayReason {
    const CONTENT: Content = Content::Werktag;

    fn read(fields: &Fields, _: Call) -> Option<DayReason> {
        DayReason::of_number(fields.kind)
    }

    fn written(&self) -> Fields {
        of_kind(self.number())
    }
}

impl FromAnswer for Date {
    const CONTENT: Content = Content::Date;

    fn read(fields: &Fields, _: Call) -> Option<Date> {
        in_calendar(fields.date)
    }

    fn written(&self) -> Fields {
        Fields { date: *self, ..of_kind(0) }
    }
}

impl FromAnswer for WerktageBetween {
    const CONTENT: Content = Content::Count;

    fn read(fields: &Fields, _: Call) -> Option<WerktageBetween> {
        let (werktage, days_tested) = (fields.count, u32::from_le_bytes(fields.word24));
        let tested = WerktageBetween::FEWEST_DAYS_TESTED..=WerktageBetween::MOST_DAYS_TESTED;
        let given = match days_tested {
            0 => werktage == 0,
            _ => tested.contains(&days_tested),
        };
        given.then_some(WerktageBetween { werktage, days_tested })
    }

    fn written(&self) -> Fields {
        let WerktageBetween { werktage: count, days_tested } = *self;
        Fields { count, word24: days_tested.to_le_bytes(), ..of_kind(0) }
    }
}

impl FromAnswer for Instant {
    const CONTENT: Content = Content::Instant;

    fn read(fields: &Fields, _: Call) -> Option<Instant> {
        at_in_calendar(fields.instant)
    }

    fn written(&self) -> Fields {
        Fields { instant: *self, ..of_kind(0) }
    }
}

impl FromAnswer for GasDue {
    const CONTENT: Content = Content::GasDue;

    fn read(fields: &Fields, call: Call) -> Option<GasDue> {
        let kind = match (fields.kind, call) {
            (0, Call::AperakGasDueAt | Call::AperakGasFolgeprozessDueAt) => {
                GasProzess::Folgeprozess
            }
            (1, Call::AperakGasDueAt | Call::AperakGasInitialprozessDueAt) => {
                GasProzess::Initialprozess
            }
            _ => return None,
        };
        Some(GasDue { kind, due: at_in_calendar(fields.instant)? })
    }

    fn written(&self) -> Fields {
        let instant = self.due;
        match self.kind {
            GasProzess::Folgeprozess => Fields { instant, ..of_kind(0) },
            GasProzess::Initialprozess => Fields { instant, ..of_kind(1) },
        }
    }
}

impl FromAnswer for Judgement {
    const CONTENT: Content = Content::Verdict;

    fn read(fields: &Fields, _: Call) -> Option<Judgement> {
        let (count, margin) = (fields.count, i32::from_le_bytes(fields.word28));
        let verdict = match fields.kind {
            0 if margin >= 0 => VorlaufVerdict::Ok,
            1 if margin < 0 => VorlaufVerdict::TooLate {
                shortfall_wt: count,
                earliest_possible: in_calendar(fields.date)?,
            },
            2 => VorlaufVerdict::TooEarly { excess_wt: count },
            _ => return None,
        };
        let given = margin.unsigned_abs() <= Judgement::LARGEST_MARGIN;
        given.then_some(Judgement { verdict, margin })
    }

    fn written(&self) -> Fields {
        let word28 = self.margin.to_le_bytes();
        match self.verdict {
            VorlaufVerdict::Ok => Fields { word28, ..of_kind(0) },
            VorlaufVerdict::TooLate { shortfall_wt: count, earliest_possible: date } => {
                Fields { count, date, word28, ..of_kind(1) }
            }
            VorlaufVerdict::TooEarly { excess_wt: count } => Fields { count, word28, ..of_kind(2) },
        }
    }
}

impl FromAnswer for Option<Judgement> {
    const CONTENT: Content = Content::AbmeldungVerdict;

    fn read(fields: &Fields, call: Call) -> Option<Option<Judgement>> {
        match fields.kind {
            3 => Some(None),
            _ => Judgement::read(fields, call).map(Some),
        }
    }

    fn written(&self) -> Fields {
        match self {
            Some(judgement) => judgement.written(),
            None => of_kind(3),
        }
    }
}

impl FromAnswer for Span {
    const CONTENT: Content = Content::Span;

    fn read(fields: &Fields, _: Call) -> Option<Span> {
        match fields.kind {
            0 => Some(Span::From(in_calendar(fields.date)?)),
            1 => {
                let last = Date::from_bytes(fields.word24);
                let (first, last) = (in_calendar(fields.date)?, in_calendar(last)?);
                (first <= last).then_some(Span::Between(first, last))
            }
            2 => Some(Span::Empty),
            _ => None,
        }
    }

    fn written(&self) -> Fields {
        match *self {
            Span::From(date) => Fields { date, ..of_kind(0) },
            Span::Between(date, last) => Fields { date, word24: last.to_bytes(), ..of_kind(1) },
            Span::Empty => of_kind(2),
        }
    }
}

impl FromAnswer for AbmeldungVorlauf {
    const CONTENT: Content = Content::AbmeldungVorlauf;

    fn read(fields: &Fields, _: Call) -> Option<AbmeldungVorlauf> {
        match fields.kind {
            0 => Some(AbmeldungVorlauf::TagVorDemLetztenWerktag),
            1 => Some(AbmeldungVorlauf::EinMonat),
            2 => Some(AbmeldungVorlauf::Unbestimmt),
            3 => Some(AbmeldungVorlauf::AnPruefschritt120),
            _ => None,
        }
    }

    fn written(&self) -> Fields {
        match self {
            AbmeldungVorlauf::TagVorDemLetztenWerktag => of_kind(0),
            AbmeldungVorlauf::EinMonat => of_kind(1),
            AbmeldungVorlauf::Unbestimmt => of_kind(2),
            AbmeldungVorlauf::AnPruefschritt120 => of_kind(3),
        }
    }
}

impl FromAnswer for Option<bool> {
    const CONTENT: Content = Content::Ankuendigung;

    fn read(fields: &Fields, _: Call) -> Option<Option<bool>> {
        match fields.kind {
            0 => Some(Some(false)),
            1 => Some(Some(true)),
            2 => Some(None),
            _ => None,
        }
    }

    fn written(&self) -> Fields {
        match self {
            Some(false) => of_kind(0),
            Some(true) => of_kind(1),
            None => of_kind(2),
        }
    }
}
