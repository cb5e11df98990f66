#[cfg(doc)]
use crate::Refusal;
use crate::{Call, Clock, Error, Instant, Question};

/// The shape of an answer's Frist.
#[derive(Clone, Copy, Debug, PartialEq, Eq, Hash)]
pub enum FristShape {
    /// [`nth_werktag_at`](crate::nth_werktag_at).
    WerktagAt {
        /// Which Werktag after the receipt day; 0 is taken as 1.
        werktage: u32,
        /// The clock time on it.
        at: Clock,
    },
    /// [`end_of_werktag_after`](crate::end_of_werktag_after).
    EndOfWerktag(u32),
    /// The clock time on the receipt day, if that is a Werktag and the time is yet to come; else on
    /// the first Werktag after it.
    SameDayAt(Clock),
    /// The end of the receipt day, Werktag or not.
    SameDay,
}

impl FristShape {
    /// How many codes there are.
    pub const CODES: u8 = 4;

    /// The number by which a call knows the shape, whatever its count and clock.
    ///
    /// ```
    /// use mako_fristen_host::FristShape;
    ///
    /// assert_eq!(FristShape::EndOfWerktag(3).code(), 1);
    /// ```
    #[must_use]
    pub const fn code(self) -> u8 {
        match self {
            FristShape::WerktagAt { .. } => 0,
            FristShape::EndOfWerktag(_) => 1,
            FristShape::SameDayAt(_) => 2,
            FristShape::SameDay => 3,
        }
    }

    /// The clock; none if the shape has none.
    ///
    /// ```
    /// use mako_fristen_host::{Clock, FristShape};
    ///
    /// let noon = Clock::new(12, 0, 0, 0);
    /// assert_eq!(FristShape::SameDayAt(noon).clock(), Some(noon));
    /// assert_eq!(FristShape::SameDay.clock(), None);
    /// ```
    #[must_use]
    pub const fn clock(self) -> Option<Clock> {
        match self {
            FristShape::WerktagAt { at, .. } | FristShape::SameDayAt(at) => Some(at),
            FristShape::EndOfWerktag(_) | FristShape::SameDay => None,
        }
    }

    /// When the answer to a message is due. [`SameDayAt`](FristShape::SameDayAt), received exactly
    /// at the clock time, goes to the next Werktag.
    ///
    /// ```
    /// use mako_fristen_host::{berlin_at, Clock, Date, FristShape};
    ///
    /// let noon = Clock::new(12, 0, 0, 0);
    /// let friday_noon = berlin_at(Date::new(2026, 1, 9), noon)?;
    /// let monday_noon = berlin_at(Date::new(2026, 1, 12), noon);
    /// assert_eq!(FristShape::SameDayAt(noon).due_at(friday_noon), monday_noon);
    /// # Ok::<(), mako_fristen_host::Error>(())
    /// ```
    ///
    /// # Errors
    ///
    /// [`Refusal::InstantOutside`], [`Refusal::LeavesCalendar`]; [`Refusal::NoClock`], for a shape
    /// with a clock; [`Refusal::LocalTimeAbsent`], if the receipt day lacks the clock time of
    /// `SameDayAt`, be it a Werktag or not.
    pub fn due_at(self, received: Instant) -> Result<Instant, Error> {
        self.question(received).content()
    }

    pub(crate) fn question(self, received: Instant) -> Question {
        let question = Question::at(Call::FristDueAt, received).with_code(self.code());
        match self {
            FristShape::WerktagAt { werktage, at } => question.with_count(werktage).with_clock(at),
            FristShape::EndOfWerktag(werktage) => question.with_count(werktage),
            FristShape::SameDayAt(at) => question.with_clock(at),
            FristShape::SameDay => question,
        }
    }

    /// As in 'Die Frist … endet', in the original's words. A clock time keeps its seconds where they
    /// are not zero, which the original drops.
    ///
    /// ```
    /// use mako_fristen_host::{Clock, FristShape};
    ///
    /// let shape = FristShape::WerktagAt { werktage: 2, at: Clock::new(6, 0, 30, 0) };
    /// let words = "bis 06:00:30 Uhr des 2. Werktags nach dem Übertragungstag";
    /// assert_eq!(shape.beschreibung(), words);
    /// ```
    #[must_use]
    pub fn beschreibung(self) -> String {
        match self {
            FristShape::WerktagAt { werktage, at } => {
                format!("bis {} des {werktage}. Werktags nach dem Übertragungstag", at.uhr())
            }
            FristShape::EndOfWerktag(n) => format!("bis zum Ablauf des {n}. Werktags nach Eingang"),
            FristShape::SameDayAt(at) => format!("bis {} am Übertragungstag", at.uhr()),
            FristShape::SameDay => "bis zum Ablauf des Übertragungstags".to_owned(),
        }
    }
}
