use crate::{ContrlAnlass, Eeg, FristShape, Sparte, VorlaufShape};

/// What a call takes before its answer.
#[derive(Clone, Copy, Debug, PartialEq, Eq, Hash)]
pub enum Parameter {
    /// Year, month and day.
    Date,
    /// The second of two dates.
    SecondDate,
    /// Werktage, months or hours.
    Count,
    /// The second count of a shape.
    SecondCount,
    /// The Prüfidentifikator, any number.
    Pid,
    /// Seconds and nanoseconds.
    Instant,
    /// The second of two instants.
    SecondInstant,
    /// Hour, minute, second and nanoseconds.
    Clock,
    /// The code of a [`ContrlAnlass`].
    Anlass,
    /// The code of a [`Sparte`].
    Sparte,
    /// The Sparte of a call whose first code is a shape.
    SecondSparte,
    /// The code of a [`FristShape`].
    Shape,
    /// The code of a [`VorlaufShape`].
    VorlaufShape,
    /// The code of an [`Eeg`] mark.
    Eeg,
    /// The bytes of a Transaktionsgrund.
    Reason,
}

impl Parameter {
    /// How many codes there are, from 0; none if the parameter is no code.
    ///
    /// ```
    /// use mako_fristen_host::Parameter;
    ///
    /// assert_eq!(Parameter::VorlaufShape.codes(), Some(8));
    /// assert_eq!(Parameter::Count.codes(), None);
    /// ```
    #[must_use]
    pub const fn codes(self) -> Option<u8> {
        match self {
            Parameter::Anlass => Some(ContrlAnlass::ALL.len() as u8),
            Parameter::Sparte | Parameter::SecondSparte => Some(Sparte::ALL.len() as u8),
            Parameter::Shape => Some(FristShape::CODES),
            Parameter::VorlaufShape => Some(VorlaufShape::CODES),
            Parameter::Eeg => Some(Eeg::ALL.len() as u8),
            Parameter::Date
            | Parameter::SecondDate
            | Parameter::Count
            | Parameter::SecondCount
            | Parameter::Pid
            | Parameter::Instant
            | Parameter::SecondInstant
            | Parameter::Clock
            | Parameter::Reason => None,
        }
    }
}
