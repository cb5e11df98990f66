use crate::bytes;
use crate::{Call, Clock, ContrlAnlass, Date, Frage, FristShape, Instant, Refusal, VorlaufShape};
use std::fmt;

const OPERATION: usize = 0;
const CODE: usize = 1;
/// Two bytes, which nothing fills.
const ZERO: usize = 2;
const COUNT: usize = 4;
const SECOND_COUNT: usize = 8;
const DATE: usize = 12;
const ANCHOR: usize = 16;
const INSTANT: usize = 20;

/// The 32 bytes of a question in a file, little-endian, laid out as document 02 says (F-1). The
/// fields are given as they stand there; what they ask is for [`frage`](Fragesatz::frage) to say.
///
/// ```
/// use mako_fristen_host::{Date, Frage, Fragesatz, Instant, VorlaufShape};
///
/// let (uebertragungstag, anchor) = (Date::new(2026, 1, 5), Date::new(2026, 1, 13));
/// let shape = VorlaufShape::WindowWerktageBefore { earliest: 8, latest: 5 };
/// let frage = Frage::Check { shape, uebertragungstag, anchor };
/// let record = frage.fragesatz().expect("no clock");
/// assert_eq!((record.operation(), record.code()), (2, 1));
/// assert_eq!((record.count(), record.second_count()), (8, 5));
/// assert_eq!((record.date(), record.anchor()), (uebertragungstag, anchor));
/// assert_eq!(record.instant(), Instant::default());
/// assert_eq!(record.as_bytes()[..8], [2, 1, 0, 0, 8, 0, 0, 0]);
/// assert_eq!(record.as_bytes()[12..20], [0xea, 0x07, 1, 5, 0xea, 0x07, 1, 13]);
/// assert_eq!(record.frage(), Ok(frage));
/// ```
#[derive(Clone, Copy, Debug, Default, PartialEq, Eq, Hash)]
pub struct Fragesatz {
    bytes: [u8; Fragesatz::LEN],
}

impl Fragesatz {
    /// How many bytes a question has, as many as its answer.
    pub const LEN: usize = bytes::LEN;

    /// The question of these bytes, whatever they are: [`frage`](Fragesatz::frage) judges them.
    #[must_use]
    pub const fn from_bytes(bytes: [u8; Fragesatz::LEN]) -> Fragesatz {
        Fragesatz { bytes }
    }

    /// The bytes.
    #[must_use]
    pub const fn as_bytes(&self) -> &[u8; Fragesatz::LEN] {
        &self.bytes
    }

    /// What is asked: 0 CONTRL, 1 due shape, 2 verdict, 3 span.
    #[must_use]
    pub const fn operation(&self) -> u8 {
        self.bytes[OPERATION]
    }

    /// The Anlass or the shape.
    #[must_use]
    pub const fn code(&self) -> u8 {
        self.bytes[CODE]
    }

    /// The first count of the shape.
    #[must_use]
    pub fn count(&self) -> u32 {
        bytes::count(&self.bytes, COUNT)
    }

    /// The second count of the shape; of a due shape its clock in whole seconds.
    #[must_use]
    pub fn second_count(&self) -> u32 {
        bytes::count(&self.bytes, SECOND_COUNT)
    }

    /// The transmission day.
    #[must_use]
    pub fn date(&self) -> Date {
        bytes::date(&self.bytes, DATE)
    }

    /// The anchor.
    #[must_use]
    pub fn anchor(&self) -> Date {
        bytes::date(&self.bytes, ANCHOR)
    }

    /// The receipt.
    #[must_use]
    pub fn instant(&self) -> Instant {
        bytes::instant(&self.bytes, INSTANT)
    }

    /// The single call of the operation; none for an operation over 3, which is refused.
    ///
    /// ```
    /// use mako_fristen_host::{Call, Fragesatz};
    ///
    /// let call = |operation| Fragesatz::default().with_operation(operation).call();
    /// assert_eq!((call(3), call(4)), (Some(Call::VorlaufSpan), None));
    /// ```
    #[must_use]
    pub const fn call(&self) -> Option<Call> {
        match self.operation() {
            0 => Some(Call::ContrlDueAt),
            1 => Some(Call::FristDueAt),
            2 => Some(Call::VorlaufCheck),
            3 => Some(Call::VorlaufSpan),
            _ => None,
        }
    }

    /// The question with plain types. What the operation or its shape does not use is not looked
    /// at, and neither is whether a date or an instant is one: that is for the answer to say.
    ///
    /// ```
    /// use mako_fristen_host::{ContrlAnlass, Frage, Fragesatz, Instant, Refusal};
    ///
    /// let received = Instant::new(1_774_951_199, 0);
    /// let record = Fragesatz::default().with_code(2).with_instant(received);
    /// let frage = Frage::Contrl { received, anlass: ContrlAnlass::GasAlocat };
    /// assert_eq!(record.frage(), Ok(frage));
    /// assert_eq!(record.with_code(3).frage(), Err(Refusal::UnknownCode));
    /// assert_eq!(record.with_operation(4).frage(), Err(Refusal::UnknownCode));
    /// let clock_of_a_day = record.with_operation(1).with_second_count(86_400);
    /// assert_eq!(clock_of_a_day.frage(), Err(Refusal::NoClock));
    /// ```
    ///
    /// # Errors
    ///
    /// [`Refusal::UnknownCode`], for an operation over 3, an unknown code, or a byte 2 or 3 that is
    /// not zero; [`Refusal::NoClock`], for a clock over 86,399 of a shape that has one. The answer
    /// to such a record is a refusal as well, with the same number, unless its receipt lies outside
    /// the calendar: [`Refusal::InstantOutside`] goes before `NoClock`.
    pub fn frage(&self) -> Result<Frage, Refusal> {
        if bytes::field(&self.bytes, ZERO) != [0; 2] {
            return Err(Refusal::UnknownCode);
        }
        let (received, uebertragungstag) = (self.instant(), self.date());
        match self.operation() {
            0 => {
                let anlass = ContrlAnlass::of_code(self.code()).ok_or(Refusal::UnknownCode)?;
                Ok(Frage::Contrl { received, anlass })
            }
            1 => Ok(Frage::Frist { shape: self.frist_shape()?, received }),
            2 => {
                let (shape, anchor) = (self.vorlauf_shape()?, self.anchor());
                Ok(Frage::Check { shape, uebertragungstag, anchor })
            }
            3 => Ok(Frage::Span { shape: self.vorlauf_shape()?, uebertragungstag }),
            _ => Err(Refusal::UnknownCode),
        }
    }

    fn frist_shape(&self) -> Result<FristShape, Refusal> {
        let clock = || Clock::of_second_of_day(self.second_count()).ok_or(Refusal::NoClock);
        match self.code() {
            0 => Ok(FristShape::WerktagAt { werktage: self.count(), at: clock()? }),
            1 => Ok(FristShape::EndOfWerktag(self.count())),
            2 => Ok(FristShape::SameDayAt(clock()?)),
            3 => Ok(FristShape::SameDay),
            _ => Err(Refusal::UnknownCode),
        }
    }

    fn vorlauf_shape(&self) -> Result<VorlaufShape, Refusal> {
        let counts = (self.count(), self.second_count());
        VorlaufShape::of_code(self.code(), counts).ok_or(Refusal::UnknownCode)
    }

    /// With this operation.
    #[must_use]
    pub fn with_operation(self, operation: u8) -> Fragesatz {
        self.with(OPERATION, &[operation])
    }

    /// With this Anlass or shape.
    #[must_use]
    pub fn with_code(self, code: u8) -> Fragesatz {
        self.with(CODE, &[code])
    }

    /// With this first count.
    #[must_use]
    pub fn with_count(self, count: u32) -> Fragesatz {
        self.with(COUNT, &count.to_le_bytes())
    }

    /// With this second count.
    #[must_use]
    pub fn with_second_count(self, count: u32) -> Fragesatz {
        self.with(SECOND_COUNT, &count.to_le_bytes())
    }

    /// With this transmission day.
    #[must_use]
    pub fn with_date(self, date: Date) -> Fragesatz {
        self.with(DATE, &date.to_bytes())
    }

    /// With this anchor.
    #[must_use]
    pub fn with_anchor(self, date: Date) -> Fragesatz {
        self.with(ANCHOR, &date.to_bytes())
    }

    /// With this receipt.
    #[must_use]
    pub fn with_instant(self, instant: Instant) -> Fragesatz {
        Fragesatz { bytes: bytes::with_instant(self.bytes, INSTANT, instant) }
    }

    fn with(self, at: usize, field: &[u8]) -> Fragesatz {
        Fragesatz { bytes: bytes::with(self.bytes, at, field) }
    }
}

/// The bytes as 64 hexadecimal digits.
impl fmt::LowerHex for Fragesatz {
    fn fmt(&self, f: &mut fmt::Formatter<'_>) -> fmt::Result {
        bytes::hex(&self.bytes, f)
    }
}
