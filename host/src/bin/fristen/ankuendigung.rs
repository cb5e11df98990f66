use mako_fristen_host::{berlin_at, berlin_midnight, sub_werktage, Clock, Date, Error, Instant};

/// The last clock time in time, on the last Werktag before the Zuordnungsbeginn.
const ENDE: Clock = Clock::new(13, 0, 0, 0);

/// When an Ankündigung der Zuordnung is in time: from the first of these instants to the last.
#[derive(Clone, Copy, Debug, PartialEq, Eq)]
pub struct Fenster {
    /// The last Werktag before the Zuordnungsbeginn.
    pub werktag: Date,
    pub from: Instant,
    pub to: Instant,
}

impl Fenster {
    /// # Errors
    ///
    /// None for a beginning for which the call has said yes or no.
    pub fn vor(zuordnungsbeginn: Date) -> Result<Fenster, Error> {
        let werktag = sub_werktage(zuordnungsbeginn, 1)?;
        Ok(Fenster { werktag, from: berlin_midnight(werktag)?, to: berlin_at(werktag, ENDE)? })
    }

    pub fn is_early(self, received: Instant) -> bool {
        received < self.from
    }

    pub fn is_late(self, received: Instant) -> bool {
        received > self.to
    }
}
