//! Until when a message must be sent for its anchor.

use crate::deutsch::{dem, den};
use crate::sentences::anchor::TERMIN;
use crate::sentences::{rule, skipped::line_of};
use crate::skipped::{self, Skipped};
use crate::uebertragung::{Monatsschritt, Uebertragungstage};
use mako_fristen_host::{Date, Error, VorlaufShape};

/// A shape and an anchor, with the transmission days that they allow, and how the last is counted.
#[derive(Debug)]
pub struct BisWann {
    pub shape: VorlaufShape,
    pub anchor: Date,
    pub days: Uebertragungstage,
    months: Option<Monatsschritt>,
    skipped: Skipped,
}

impl BisWann {
    /// # Errors
    ///
    /// Those of [`Uebertragungstage::of`].
    pub fn of((shape, anchor): (VorlaufShape, Date)) -> Result<BisWann, Error> {
        let days = Uebertragungstage::of(shape, anchor)?;
        let months = Monatsschritt::of(shape, anchor)?;
        // Months pass over nothing: Werktage are counted from the day to which they lead.
        let skipped = skipped::between(months.map_or(anchor, |step| step.to), days.last)?;
        Ok(BisWann { shape, anchor, days, months, skipped })
    }

    /// The days first, then the rule, then what is passed over for the last of them.
    pub fn text(&self) -> String {
        let (anchor, rule) = (dem(self.anchor), rule::of(self.shape, &TERMIN, self.months));
        let Uebertragungstage { first, last } = self.days;
        if self.days.is_empty() {
            return format!("Für den Termin am {anchor}, gibt es keinen Übertragungstag.\n{rule}");
        }
        let days = match first {
            Some(first) if first == last => format!("am {}, übertragen werden", dem(last)),
            Some(first) => format!("von {}, bis {}, übertragen werden", dem(first), den(last)),
            None => format!("spätestens am {}, übertragen sein", dem(last)),
        };
        // Of two days it would not be clear which is meant.
        let label = match first {
            Some(first) if first < last => "Zwischen dem spätesten Tag und dem Termin übersprungen",
            _ => "Übersprungen",
        };
        let skipped = line_of(label, &self.skipped);
        format!("Für den Termin am {anchor}, muss die Nachricht {days}.\n{rule}{skipped}")
    }
}
