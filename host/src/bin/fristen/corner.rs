use crate::skipped::Closed;
use mako_fristen_host::{BerlinTime, Error, FristShape, Instant};

/// Where the due instant is not what the words of its shape say.
#[derive(Clone, Copy, Debug, PartialEq, Eq)]
pub enum Corner {
    /// 0 Werktage count like 1.
    NullWieEins,
    /// With 0 Werktage it is the day of the receipt, Werktag or not.
    Eingangstag,
    /// The clock time had come when the message was received: it is the next Werktag.
    UhrzeitErreicht,
    /// The day of the receipt is no Werktag but this: it is the next one.
    KeinWerktag(Closed),
}

impl Corner {
    /// # Errors
    ///
    /// None for a due instant that a call has answered.
    pub fn of(shape: FristShape, received: Instant, due: Instant) -> Result<Option<Corner>, Error> {
        let received = BerlinTime::of(received)?.date;
        Ok(match shape {
            FristShape::WerktagAt { werktage: 0, .. } => Some(Corner::NullWieEins),
            FristShape::EndOfWerktag(0) => Some(Corner::Eingangstag),
            FristShape::SameDayAt(_) if BerlinTime::of(due)?.date == received => None,
            FristShape::SameDayAt(_) => {
                Some(Closed::on(received)?.map_or(Corner::UhrzeitErreicht, Corner::KeinWerktag))
            }
            FristShape::WerktagAt { .. } | FristShape::EndOfWerktag(_) | FristShape::SameDay => {
                None
            }
        })
    }

    /// As JSON has it.
    pub fn name(self) -> &'static str {
        match self {
            Corner::NullWieEins => "NullWieEins",
            Corner::Eingangstag => "Eingangstag",
            Corner::UhrzeitErreicht => "UhrzeitErreicht",
            Corner::KeinWerktag(_) => "KeinWerktag",
        }
    }
}
