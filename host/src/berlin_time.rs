use crate::{berlin_at, berlin_date, Clock, Date, Error, Instant, Refusal};

const HOUR: i64 = 3600;

/// What Berlin's calendar and clock show at an instant.
#[derive(Clone, Copy, Debug, PartialEq, Eq, Hash)]
pub struct BerlinTime {
    /// The day in Berlin.
    pub date: Date,
    /// The time of that day.
    pub clock: Clock,
    /// UTC+2, else UTC+1.
    pub summer: bool,
    /// Whether the clock shows this time twice on that day.
    pub repeated: bool,
}

impl BerlinTime {
    /// The inverse of [`berlin_at`], through the calls alone.
    ///
    /// ```
    /// use mako_fristen_host::{BerlinTime, Clock, Date, Instant};
    ///
    /// // 25 October 2026, 00:30 UTC: the first of two times that the clock shows 02:30.
    /// let time = BerlinTime::of(Instant::new(1_792_888_200, 0))?;
    /// assert_eq!((time.date, time.clock), (Date::new(2026, 10, 25), Clock::new(2, 30, 0, 0)));
    /// assert!(time.summer && time.repeated);
    /// # Ok::<(), mako_fristen_host::Error>(())
    /// ```
    ///
    /// # Errors
    ///
    /// [`Refusal::InstantOutside`].
    pub fn of(instant: Instant) -> Result<BerlinTime, Error> {
        let date = berlin_date(instant)?;
        let summer = is_summer(instant)?;
        let (_, clock) = shown(instant, summer).ok_or(Refusal::InstantOutside)?;
        let repeated = match instant.plus_seconds(if summer { HOUR } else { -HOUR }) {
            Some(other) => is_summer(other)? != summer,
            None => false,
        };
        Ok(BerlinTime { date, clock, summer, repeated })
    }
}

/// A repeated time means its earlier instant, which is the one in summer time: so the call gives
/// the instant back for the clock of UTC+2 exactly if that is the clock.
fn is_summer(instant: Instant) -> Result<bool, Error> {
    let Some((date, clock)) = shown(instant, true) else { return Ok(false) };
    match berlin_at(date, clock) {
        Ok(at) => Ok(at == instant),
        // In winter time the clock of UTC+2 may show a time that is absent, or the year 2900.
        Err(Error::Refused(Refusal::LocalTimeAbsent | Refusal::NoDate)) => Ok(false),
        Err(error) => Err(error),
    }
}

fn shown(instant: Instant, summer: bool) -> Option<(Date, Clock)> {
    instant.plus_seconds(if summer { 2 * HOUR } else { HOUR })?.utc()
}
