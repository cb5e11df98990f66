use crate::content::FromAnswer;
use crate::{call, Answer, Call, Clock, Date, Error, Instant, Parameter, Reason, VorlaufShape};
use std::fmt;

/// A call with its arguments. What the call does not take is zero.
///
/// A service that asks one thing takes the function of that name. A question is for one that keeps
/// a list of them, logs them, or has codes and counts as numbers from elsewhere: it can hold any
/// numbers, and the call refuses what it does not know.
///
/// ```
/// use mako_fristen_host::{Call, Date, Question, Refusal};
///
/// let question = Question::on(Call::AddWerktage, Date::new(2026, 4, 2)).with_count(1);
/// assert_eq!(question.to_string(), "mf_add_werktage(2026-04-02, 1)");
/// assert_eq!(question.answer().map(|answer| answer.date()), Ok(Date::new(2026, 4, 7)));
/// let no_sparte = Question::on(Call::TagesbeginnUtc, Date::new(2026, 4, 2)).with_code(2);
/// assert_eq!(no_sparte.answer(), Err(Refusal::UnknownCode.into()));
/// ```
///
/// Each place has its `with`. What the call does not take may hold anything:
///
/// ```
/// use mako_fristen_host::{
///     Call, Date, Instant, Judgement, Question, Sparte, VorlaufShape, VorlaufVerdict,
/// };
///
/// let (friday, monday) = (Instant::new(1_767_999_599, 0), Instant::new(1_768_194_000, 0));
/// let question = Question::at(Call::VorlaufCheckAt, friday)
///     .with_shape(VorlaufShape::LatestWerktageBefore(1))
///     .with_second_instant(monday)
///     .with_second_code(Sparte::Gas.code());
/// let answer = question.with_second(Date::new(0, 99, 99)).answer()?;
/// let on_the_last_day = Judgement { verdict: VorlaufVerdict::Ok, margin: 0 };
/// assert_eq!(answer.read(Call::VorlaufCheckAt), Ok(on_the_last_day));
/// # Ok::<(), mako_fristen_host::Error>(())
/// ```
#[derive(Clone, Copy, Debug, PartialEq, Eq, Hash)]
pub struct Question {
    /// Which call is put.
    pub call: Call,
    /// The Anlass, the Sparte, the shape or the EEG mark.
    pub code: u8,
    /// The Sparte beside a shape.
    pub code2: u8,
    /// The date, or the first of two: of a verdict the transmission day.
    pub date: Date,
    /// The second date: of a verdict the anchor.
    pub date2: Date,
    /// The count or the pid.
    pub n: u32,
    /// The second count of a shape.
    pub n2: u32,
    /// The instant, or the first of two: of a verdict the transmission.
    pub instant: Instant,
    /// The second instant: of a verdict the beginning of the anchor.
    pub instant2: Instant,
    /// The clock time.
    pub clock: Clock,
    /// The Transaktionsgrund.
    pub reason: Reason,
}

impl Question {
    /// How many bytes [`to_bytes`](Question::to_bytes) gives.
    pub const LEN: usize = 64;

    /// With zero in every place, which most calls refuse.
    #[must_use]
    pub fn new(call: Call) -> Question {
        Question {
            call,
            code: 0,
            code2: 0,
            date: Date::default(),
            date2: Date::default(),
            n: 0,
            n2: 0,
            instant: Instant::default(),
            instant2: Instant::default(),
            clock: Clock::default(),
            reason: Reason::default(),
        }
    }

    /// With a date, and zero in every other place.
    #[must_use]
    pub fn on(call: Call, date: Date) -> Question {
        Question { date, ..Question::new(call) }
    }

    /// With an instant, and zero in every other place.
    #[must_use]
    pub fn at(call: Call, instant: Instant) -> Question {
        Question { instant, ..Question::new(call) }
    }

    /// With this code.
    #[must_use]
    pub fn with_code(self, code: u8) -> Question {
        Question { code, ..self }
    }

    /// With this Sparte beside a shape.
    #[must_use]
    pub fn with_second_code(self, code2: u8) -> Question {
        Question { code2, ..self }
    }

    /// With this second date.
    #[must_use]
    pub fn with_second(self, date2: Date) -> Question {
        Question { date2, ..self }
    }

    /// With this count or pid.
    #[must_use]
    pub fn with_count(self, n: u32) -> Question {
        Question { n, ..self }
    }

    /// With this second count.
    #[must_use]
    pub fn with_second_count(self, n2: u32) -> Question {
        Question { n2, ..self }
    }

    /// With the code and the counts of the shape.
    #[must_use]
    pub fn with_shape(self, shape: VorlaufShape) -> Question {
        let (n, n2) = shape.counts();
        Question { code: shape.code(), n, n2, ..self }
    }

    /// With this second instant.
    #[must_use]
    pub fn with_second_instant(self, instant2: Instant) -> Question {
        Question { instant2, ..self }
    }

    /// With this clock time.
    #[must_use]
    pub fn with_clock(self, clock: Clock) -> Question {
        Question { clock, ..self }
    }

    /// With this Transaktionsgrund.
    #[must_use]
    pub fn with_reason(self, reason: Reason) -> Question {
        Question { reason, ..self }
    }

    /// Puts the question with a lent answer of any length; returns the refusal number or 0. An
    /// answer that is not 32 bytes long is refused with 1 and left untouched.
    ///
    /// ```
    /// use mako_fristen_host::{Call, Date, Question};
    ///
    /// let question = Question::on(Call::IsWerktag, Date::new(2026, 4, 3));
    /// let mut answers = [7; 33];
    /// assert_eq!((question.ask(&mut answers), answers), (1, [7; 33]));
    /// assert_eq!((question.ask(&mut answers[..32]), answers[1]), (0, 17), "Karfreitag");
    /// ```
    #[must_use]
    pub fn ask(&self, answer: &mut [u8]) -> u8 {
        call::put(self, answer)
    }

    /// The answer, unless the call refuses or its bytes cannot be read.
    ///
    /// ```
    /// use mako_fristen_host::{Call, Date, Question};
    ///
    /// let question = Question::on(Call::WerktageBetween, Date::new(2025, 12, 31));
    /// let answer = question.with_second(Date::new(2026, 12, 31)).answer()?;
    /// assert_eq!(answer.count(), 249);
    /// # Ok::<(), mako_fristen_host::Error>(())
    /// ```
    ///
    /// # Errors
    ///
    /// The refusal whose number the call returned; an answer that the documents do not have.
    pub fn answer(&self) -> Result<Answer, Error> {
        Answer::of(self.call, |answer| self.ask(answer))
    }

    /// The same, read.
    pub(crate) fn content<T: FromAnswer>(&self) -> Result<T, Error> {
        Answer::content_of(self.call, |answer| self.ask(answer))
    }

    /// The question as a line of the replay list holds it, little-endian: byte 0 the call, 1 the
    /// code, 4 to 7 the first date, 8 to 11 the second or the clock's nanoseconds, 12 to 15 the
    /// count or pid, 16 to 23 the instant's seconds, 24 to 27 its nanoseconds, 28 to 30 the clock's
    /// hour, minute and second, 32 to 35 the second count, 36 to 47 the second instant, 48 the
    /// second code, 49 the reason's length, then its bytes; the rest zero.
    ///
    /// ```
    /// use mako_fristen_host::{Call, Date, Question};
    ///
    /// let question = Question::on(Call::AddWerktage, Date::new(2026, 4, 2)).with_count(1);
    /// assert_eq!(question.to_bytes()[..8], [2, 0, 0, 0, 0xea, 0x07, 4, 2]);
    /// assert_eq!(question.to_bytes()[8..16], [0, 0, 0, 0, 1, 0, 0, 0]);
    /// ```
    #[must_use]
    pub fn to_bytes(&self) -> [u8; Question::LEN] {
        let with_clock = self.call.takes(Parameter::Clock);
        let Clock { hour, minute, second, nanos } = self.clock;
        let mut bytes = [0; Question::LEN];
        bytes[..2].copy_from_slice(&[self.call.number(), self.code]);
        bytes[4..8].copy_from_slice(&self.date.to_bytes());
        let shared = if with_clock { nanos.to_le_bytes() } else { self.date2.to_bytes() };
        bytes[8..12].copy_from_slice(&shared);
        bytes[12..16].copy_from_slice(&self.n.to_le_bytes());
        bytes[16..24].copy_from_slice(&self.instant.seconds.to_le_bytes());
        bytes[24..28].copy_from_slice(&self.instant.nanos.to_le_bytes());
        bytes[28..31].copy_from_slice(&[hour, minute, second]);
        bytes[32..36].copy_from_slice(&self.n2.to_le_bytes());
        bytes[36..44].copy_from_slice(&self.instant2.seconds.to_le_bytes());
        bytes[44..48].copy_from_slice(&self.instant2.nanos.to_le_bytes());
        let reason = self.reason.as_bytes();
        bytes[48..50].copy_from_slice(&[self.code2, reason.len() as u8]);
        bytes[50..50 + reason.len()].copy_from_slice(reason);
        bytes
    }
}

/// As it is written in code: `mf_add_werktage(2026-04-02, 1)`.
impl fmt::Display for Question {
    fn fmt(&self, f: &mut fmt::Formatter<'_>) -> fmt::Result {
        write!(f, "{}(", self.call.name())?;
        for (place, parameter) in self.call.parameters().iter().enumerate() {
            if place > 0 {
                write!(f, ", ")?;
            }
            match parameter {
                Parameter::Date => write!(f, "{}", self.date)?,
                Parameter::SecondDate => write!(f, "{}", self.date2)?,
                Parameter::Count | Parameter::Pid => write!(f, "{}", self.n)?,
                Parameter::SecondCount => write!(f, "{}", self.n2)?,
                Parameter::Instant => write!(f, "{}", self.instant)?,
                Parameter::SecondInstant => write!(f, "{}", self.instant2)?,
                Parameter::Clock => write!(f, "{}", self.clock)?,
                Parameter::Reason => write!(f, "{}", self.reason)?,
                Parameter::SecondSparte => write!(f, "{}", self.code2)?,
                Parameter::Anlass
                | Parameter::Sparte
                | Parameter::Shape
                | Parameter::VorlaufShape
                | Parameter::Eeg => write!(f, "{}", self.code)?,
            }
        }
        write!(f, ")")
    }
}
