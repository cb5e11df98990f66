use crate::fristen::contrl_question;
#[cfg(doc)]
use crate::Refusal;
use crate::{
    contrl_due_at, Answer, Antwort, Call, Clock, ContrlAnlass, Date, Error, Fragesatz, FristShape,
    Instant, Question, VorlaufShape,
};

/// The count of a clock that is no time of day: the first that a record is refused for.
const NO_TIME_OF_DAY: u32 = 86_400;

/// One of a day's questions, as document 02 puts them into a file (F-1): [`fragen`](crate::fragen)
/// answers any number of them. Each has its single call, which gives the same answer.
///
/// ```
/// use mako_fristen_host::{Antwort, Date, Frage, Span, VorlaufShape};
///
/// let shape = VorlaufShape::LatestWerktageBefore(1);
/// let frage = Frage::Span { shape, uebertragungstag: Date::new(2026, 1, 10) };
/// let span = Span::From(Date::new(2026, 1, 13));
/// assert_eq!(frage.answer(), Ok(Antwort::Span(span)));
/// ```
#[derive(Clone, Copy, Debug, PartialEq, Eq, Hash)]
pub enum Frage {
    /// When is the CONTRL due? [`contrl_due_at`].
    Contrl {
        /// When the message was received.
        received: Instant,
        /// What the CONTRL answers.
        anlass: ContrlAnlass,
    },
    /// When is the answer due? [`FristShape::due_at`].
    Frist {
        /// The shape of its Frist.
        shape: FristShape,
        /// When the message was received.
        received: Instant,
    },
    /// Was the message sent in time? [`VorlaufShape::check`].
    Check {
        /// The shape of the Vorlauffrist.
        shape: VorlaufShape,
        /// The day on which the message was sent.
        uebertragungstag: Date,
        /// The date that it carries.
        anchor: Date,
    },
    /// Which dates may the message carry? [`VorlaufShape::span`].
    Span {
        /// The shape of the Vorlauffrist.
        shape: VorlaufShape,
        /// The day on which the message is sent.
        uebertragungstag: Date,
    },
}

impl Frage {
    /// The number by which a record knows the operation: 0 CONTRL, 1 due shape, 2 verdict, 3 span.
    ///
    /// ```
    /// use mako_fristen_host::{ContrlAnlass, Frage, Instant};
    ///
    /// let received = Instant::new(1_774_951_199, 0);
    /// assert_eq!(Frage::Contrl { received, anlass: ContrlAnlass::Regelfall }.operation(), 0);
    /// ```
    #[must_use]
    pub const fn operation(&self) -> u8 {
        match self {
            Frage::Contrl { .. } => 0,
            Frage::Frist { .. } => 1,
            Frage::Check { .. } => 2,
            Frage::Span { .. } => 3,
        }
    }

    /// The single call of the operation.
    ///
    /// ```
    /// use mako_fristen_host::{Call, Date, Frage, VorlaufShape};
    ///
    /// let (shape, uebertragungstag) = (VorlaufShape::Korridor(5), Date::new(2026, 4, 7));
    /// assert_eq!(Frage::Span { shape, uebertragungstag }.call(), Call::VorlaufSpan);
    /// ```
    #[must_use]
    pub const fn call(&self) -> Call {
        match self {
            Frage::Contrl { .. } => Call::ContrlDueAt,
            Frage::Frist { .. } => Call::FristDueAt,
            Frage::Check { .. } => Call::VorlaufCheck,
            Frage::Span { .. } => Call::VorlaufSpan,
        }
    }

    /// The single call with its arguments.
    ///
    /// ```
    /// use mako_fristen_host::{ContrlAnlass, Frage, Instant};
    ///
    /// let received = Instant::new(1_774_951_199, 0);
    /// let question = Frage::Contrl { received, anlass: ContrlAnlass::GasAlocat }.question();
    /// assert_eq!(question.to_string(), "mf_contrl_due_at(1774951199 s 0 ns, 2)");
    /// ```
    #[must_use]
    pub fn question(&self) -> Question {
        match *self {
            Frage::Contrl { received, anlass } => contrl_question(received, anlass),
            Frage::Frist { shape, received } => shape.question(received),
            Frage::Check { shape, uebertragungstag, anchor } => {
                shape.check_question(uebertragungstag, anchor)
            }
            Frage::Span { shape, uebertragungstag } => shape.span_question(uebertragungstag),
        }
    }

    /// The answer of the single call.
    ///
    /// ```
    /// use mako_fristen_host::{Antwort, Date, Frage, Judgement, VorlaufShape, VorlaufVerdict};
    ///
    /// let frage = Frage::Check {
    ///     shape: VorlaufShape::TagVorDemLetztenWerktagVor,
    ///     uebertragungstag: Date::new(2026, 1, 8),
    ///     anchor: Date::new(2026, 1, 10),
    /// };
    /// let on_the_last_day = Judgement { verdict: VorlaufVerdict::Ok, margin: 0 };
    /// assert_eq!(frage.answer(), Ok(Antwort::Verdict(on_the_last_day)));
    /// ```
    ///
    /// # Errors
    ///
    /// Those of [`contrl_due_at`], [`FristShape::due_at`], [`VorlaufShape::check`] or
    /// [`VorlaufShape::span`].
    pub fn answer(&self) -> Result<Antwort, Error> {
        match *self {
            Frage::Contrl { received, anlass } => contrl_due_at(received, anlass).map(Antwort::Due),
            Frage::Frist { shape, received } => shape.due_at(received).map(Antwort::Due),
            Frage::Check { shape, uebertragungstag, anchor } => {
                shape.check(uebertragungstag, anchor).map(Antwort::Verdict)
            }
            Frage::Span { shape, uebertragungstag } => {
                shape.span(uebertragungstag).map(Antwort::Span)
            }
        }
    }

    /// What an answer to this question says. Every byte of it counts, as for [`Answer::read`].
    ///
    /// ```
    /// use mako_fristen_host::{Answer, Antwort, ContrlAnlass, Frage, Instant};
    ///
    /// let received = Instant::new(1_774_951_199, 0);
    /// let frage = Frage::Contrl { received, anlass: ContrlAnlass::Regelfall };
    /// let due = Instant::new(1_774_972_799, 0);
    /// assert_eq!(frage.read(&Answer::default().with_instant(due)), Ok(Antwort::Due(due)));
    /// ```
    ///
    /// # Errors
    ///
    /// Those of [`Answer::read`].
    pub fn read(&self, answer: &Answer) -> Result<Antwort, Error> {
        match self {
            Frage::Contrl { .. } | Frage::Frist { .. } => {
                answer.read(self.call()).map(Antwort::Due)
            }
            Frage::Check { .. } => answer.read(self.call()).map(Antwort::Verdict),
            Frage::Span { .. } => answer.read(self.call()).map(Antwort::Span),
        }
    }

    /// The record in a file. None only if the shape has a clock with a fraction of a second, for
    /// which a record has no room. A clock that is no time of day becomes a count that is none
    /// either, so that the record is refused as the call is ([`Refusal::NoClock`]).
    ///
    /// ```
    /// use mako_fristen_host::{Clock, Frage, FristShape, Instant};
    ///
    /// let received = Instant::new(1_767_956_400, 0);
    /// let at = |clock| Frage::Frist { shape: FristShape::SameDayAt(clock), received }.fragesatz();
    /// let noon = at(Clock::new(12, 0, 0, 0)).expect("whole seconds");
    /// assert_eq!((noon.operation(), noon.code(), noon.second_count()), (1, 2, 43_200));
    /// assert_eq!(at(Clock::new(12, 0, 0, 1)), None);
    /// assert_eq!(at(Clock::new(0, 60, 0, 0)).map(|none| none.second_count()), Some(86_400));
    /// ```
    #[must_use]
    pub fn fragesatz(&self) -> Option<Fragesatz> {
        let Question { code, n, n2, date, date2, instant, .. } = self.question();
        let second_count = match self {
            Frage::Frist { shape, .. } => shape.clock().map_or(Some(0), clock_count)?,
            _ => n2,
        };
        let record = Fragesatz::default().with_operation(self.operation()).with_code(code);
        let record = record.with_count(n).with_second_count(second_count);
        Some(record.with_date(date).with_anchor(date2).with_instant(instant))
    }
}

/// None for a fraction of a second.
fn clock_count(clock: Clock) -> Option<u32> {
    match clock.second_of_day() {
        None => Some(NO_TIME_OF_DAY),
        Some(second) => (clock.nanos == 0).then_some(second),
    }
}
