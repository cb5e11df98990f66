//! A Vorlauffrist: whether a message was sent in time for the date it carries, the anchor, and which
//! anchors its day allows.

#[cfg(doc)]
use crate::Refusal;
use crate::{Call, Date, Error, Instant, Judgement, Question, Span, Sparte};

/// The shape of a Vorlauffrist, in Werktage or months relative to the anchor.
#[derive(Clone, Copy, Debug, PartialEq, Eq, Hash)]
pub enum VorlaufShape {
    /// At the latest on the n-th Werktag before the anchor.
    LatestWerktageBefore(u32),
    /// From the `earliest`-th Werktag before the anchor to the `latest`-th, a smaller number.
    WindowWerktageBefore {
        /// Which Werktag before the anchor the window opens on.
        earliest: u32,
        /// Which Werktag before the anchor it closes on.
        latest: u32,
    },
    /// At the latest on the n-th Werktag after the anchor.
    LatestWerktageAfter(u32),
    /// The anchor is at the earliest the n-th Werktag after the transmission day.
    EarliestWerktageAfter(u32),
    /// From the n-th Werktag before the anchor to the n-th after it.
    Korridor(u32),
    /// At the latest on the day before the last Werktag before the anchor.
    TagVorDemLetztenWerktagVor,
    /// At the latest n months before the anchor.
    LatestMonateBefore(u32),
    /// At the latest so many Werktage before the day so many months before the anchor.
    LatestMonateUndWerktageBefore {
        /// The months before the anchor.
        monate: u32,
        /// The Werktage before the day that the months give.
        werktage: u32,
    },
}

impl VorlaufShape {
    /// How many codes there are.
    pub const CODES: u8 = 8;

    /// The number by which a call knows the shape, whatever its counts.
    ///
    /// ```
    /// use mako_fristen_host::VorlaufShape;
    ///
    /// assert_eq!(VorlaufShape::Korridor(5).code(), 4);
    /// ```
    #[must_use]
    pub const fn code(self) -> u8 {
        match self {
            VorlaufShape::LatestWerktageBefore(_) => 0,
            VorlaufShape::WindowWerktageBefore { .. } => 1,
            VorlaufShape::LatestWerktageAfter(_) => 2,
            VorlaufShape::EarliestWerktageAfter(_) => 3,
            VorlaufShape::Korridor(_) => 4,
            VorlaufShape::TagVorDemLetztenWerktagVor => 5,
            VorlaufShape::LatestMonateBefore(_) => 6,
            VorlaufShape::LatestMonateUndWerktageBefore { .. } => 7,
        }
    }

    /// The two counts; one that the shape does not have is zero.
    ///
    /// ```
    /// use mako_fristen_host::VorlaufShape;
    ///
    /// assert_eq!(VorlaufShape::Korridor(5).counts(), (5, 0));
    /// let window = VorlaufShape::WindowWerktageBefore { earliest: 8, latest: 5 };
    /// assert_eq!(window.counts(), (8, 5));
    /// ```
    #[must_use]
    pub const fn counts(self) -> (u32, u32) {
        match self {
            VorlaufShape::LatestWerktageBefore(n)
            | VorlaufShape::LatestWerktageAfter(n)
            | VorlaufShape::EarliestWerktageAfter(n)
            | VorlaufShape::Korridor(n)
            | VorlaufShape::LatestMonateBefore(n) => (n, 0),
            VorlaufShape::WindowWerktageBefore { earliest, latest } => (earliest, latest),
            VorlaufShape::TagVorDemLetztenWerktagVor => (0, 0),
            VorlaufShape::LatestMonateUndWerktageBefore { monate, werktage } => (monate, werktage),
        }
    }

    /// The shape of a code and two counts, the inverse of [`code`](VorlaufShape::code) and
    /// [`counts`](VorlaufShape::counts): a count that the shape does not have is not looked at.
    /// None for a code that the calls refuse.
    ///
    /// ```
    /// use mako_fristen_host::VorlaufShape;
    ///
    /// assert_eq!(VorlaufShape::of_code(4, (5, 99)), Some(VorlaufShape::Korridor(5)));
    /// assert_eq!(VorlaufShape::of_code(8, (5, 0)), None);
    /// ```
    #[must_use]
    pub const fn of_code(code: u8, (n, n2): (u32, u32)) -> Option<VorlaufShape> {
        Some(match code {
            0 => VorlaufShape::LatestWerktageBefore(n),
            1 => VorlaufShape::WindowWerktageBefore { earliest: n, latest: n2 },
            2 => VorlaufShape::LatestWerktageAfter(n),
            3 => VorlaufShape::EarliestWerktageAfter(n),
            4 => VorlaufShape::Korridor(n),
            5 => VorlaufShape::TagVorDemLetztenWerktagVor,
            6 => VorlaufShape::LatestMonateBefore(n),
            7 => VorlaufShape::LatestMonateUndWerktageBefore { monate: n, werktage: n2 },
            _ => return None,
        })
    }

    /// The verdict on a transmission day and an anchor, and its margin. One Werktag before a Monday
    /// is the Friday; a message of the Saturday between is too late by a day, although no Werktag is
    /// missing, and the Monday that is named is the date just rejected.
    ///
    /// ```
    /// use mako_fristen_host::{Date, Judgement, VorlaufShape, VorlaufVerdict};
    ///
    /// let (saturday, monday) = (Date::new(2026, 1, 10), Date::new(2026, 1, 12));
    /// let judgement = VorlaufShape::LatestWerktageBefore(1).check(saturday, monday);
    /// let verdict = VorlaufVerdict::TooLate { shortfall_wt: 0, earliest_possible: monday };
    /// assert_eq!(judgement, Ok(Judgement { verdict, margin: -1 }));
    /// ```
    ///
    /// # Errors
    ///
    /// [`Refusal::NoDate`], for either date; [`Refusal::LeavesCalendar`], if a date that the
    /// original computes for it does so; the shapes with months compute theirs for an Ok as well.
    pub fn check(self, uebertragungstag: Date, anchor: Date) -> Result<Judgement, Error> {
        self.check_question(uebertragungstag, anchor).content()
    }

    pub(crate) fn check_question(self, uebertragungstag: Date, anchor: Date) -> Question {
        let question = Question::on(Call::VorlaufCheck, uebertragungstag).with_second(anchor);
        question.with_shape(self)
    }

    /// The same with a transmission instant, whose day is the Berlin day in both Sparten, and an
    /// anchor that is given as the beginning of its day in its Sparte. For Gas that is 06:00, not
    /// midnight.
    ///
    /// ```
    /// use mako_fristen_host::{
    ///     berlin_at, berlin_midnight, Clock, Date, Error, Judgement, Refusal, Sparte, VorlaufShape,
    ///     VorlaufVerdict,
    /// };
    ///
    /// let friday_evening = berlin_at(Date::new(2026, 1, 9), Clock::new(23, 59, 59, 0))?;
    /// let monday = Date::new(2026, 1, 12);
    /// let gas_day = berlin_at(monday, Clock::new(6, 0, 0, 0))?;
    /// let check = |anchor| {
    ///     VorlaufShape::LatestWerktageBefore(1).check_at(friday_evening, anchor, Sparte::Gas)
    /// };
    /// assert_eq!(check(gas_day), Ok(Judgement { verdict: VorlaufVerdict::Ok, margin: 0 }));
    /// assert_eq!(check(berlin_midnight(monday)?), Err(Refusal::NoBeginning.into()));
    /// # Ok::<(), Error>(())
    /// ```
    ///
    /// # Errors
    ///
    /// [`Refusal::InstantOutside`], for either instant; [`Refusal::NoBeginning`], for the anchor;
    /// [`Refusal::LeavesCalendar`].
    pub fn check_at(
        self,
        uebertragen: Instant,
        anchor: Instant,
        sparte: Sparte,
    ) -> Result<Judgement, Error> {
        let question = Question::at(Call::VorlaufCheckAt, uebertragen).with_second_instant(anchor);
        question.with_second_code(sparte.code()).with_shape(self).content()
    }

    /// The anchors that the transmission day allows. From Saturday, 10 January 2026 on, one Werktag
    /// before is kept from the 13th on, and a window of that one Werktag never.
    ///
    /// ```
    /// use mako_fristen_host::{Date, Span, VorlaufShape};
    ///
    /// let saturday = Date::new(2026, 1, 10);
    /// let latest = VorlaufShape::LatestWerktageBefore(1);
    /// assert_eq!(latest.span(saturday), Ok(Span::From(Date::new(2026, 1, 13))));
    /// let window = VorlaufShape::WindowWerktageBefore { earliest: 1, latest: 1 };
    /// assert_eq!(window.span(saturday), Ok(Span::Empty));
    /// ```
    ///
    /// # Errors
    ///
    /// [`Refusal::NoDate`]; [`Refusal::LeavesCalendar`], if an end of the span does so.
    pub fn span(self, uebertragungstag: Date) -> Result<Span, Error> {
        self.span_question(uebertragungstag).content()
    }

    pub(crate) fn span_question(self, uebertragungstag: Date) -> Question {
        Question::on(Call::VorlaufSpan, uebertragungstag).with_shape(self)
    }

    /// A German sentence, in which the anchor is the Termin. A count of 0 has its own words.
    ///
    /// ```
    /// use mako_fristen_host::VorlaufShape;
    ///
    /// let of = |n| VorlaufShape::LatestWerktageBefore(n).beschreibung();
    /// assert_eq!(of(5), "Spätester Übertragungstag ist der 5. Werktag vor dem Termin.");
    /// assert_eq!(of(0), "Spätester Übertragungstag ist der Termin selbst.");
    /// ```
    #[must_use]
    pub fn beschreibung(self) -> String {
        match self {
            VorlaufShape::LatestWerktageBefore(n) => {
                format!("Spätester Übertragungstag ist {}.", werktag(n, "vor"))
            }
            VorlaufShape::WindowWerktageBefore { earliest, latest } => {
                let (from, to) = (werktag(earliest, "vor"), werktag(latest, "vor"));
                format!("Frühester Übertragungstag ist {from}, spätester {to}.")
            }
            VorlaufShape::LatestWerktageAfter(n) => {
                format!("Spätester Übertragungstag ist {}.", werktag(n, "nach"))
            }
            VorlaufShape::EarliestWerktageAfter(n) => earliest(n),
            VorlaufShape::Korridor(n) => korridor(n),
            VorlaufShape::TagVorDemLetztenWerktagVor => {
                "Spätester Übertragungstag ist der Tag vor dem letzten Werktag vor dem Termin."
                    .to_owned()
            }
            VorlaufShape::LatestMonateBefore(n) => {
                format!("Spätester Übertragungstag liegt {} vor dem Termin.", monate(n))
            }
            VorlaufShape::LatestMonateUndWerktageBefore { monate: m, werktage } => {
                let days = if werktage == 1 { "Werktag" } else { "Werktage" };
                let months = monate(m);
                format!(
                    "Spätester Übertragungstag liegt {months} und {werktage} {days} vor dem Termin."
                )
            }
        }
    }
}

fn earliest(n: u32) -> String {
    match n {
        0 => "Frühester Termin ist der Übertragungstag selbst.".to_owned(),
        n => format!("Frühester Termin ist der {n}. Werktag nach dem Übertragungstag."),
    }
}

fn korridor(n: u32) -> String {
    match n {
        0 => "Der Übertragungstag muss der Termin selbst sein.".to_owned(),
        n => format!(
            "Der Übertragungstag muss vom {n}. Werktag vor bis zum {n}. Werktag nach dem Termin \
             liegen."
        ),
    }
}

fn werktag(n: u32, side: &str) -> String {
    match n {
        0 => "der Termin selbst".to_owned(),
        n => format!("der {n}. Werktag {side} dem Termin"),
    }
}

fn monate(n: u32) -> String {
    format!("{n} {}", if n == 1 { "Monat" } else { "Monate" })
}
