#[cfg(doc)]
use crate::Refusal;
use crate::{Call, Date, Error, Instant, Question};

/// Whether the Ankündigung der Zuordnung, received at `uez`, came from 00:00 to 13:00 of the last
/// Werktag before the Zuordnungsbeginn. None if that day has begun by then.
///
/// ```
/// use mako_fristen_host::{
///     berlin_at, berlin_midnight, eog_ankuendigung_fristgerecht, Clock, Date,
/// };
///
/// let (friday, monday) = (Date::new(2026, 1, 9), Date::new(2026, 1, 12));
/// let in_time = |uez| eog_ankuendigung_fristgerecht(uez, monday);
/// assert_eq!(in_time(berlin_at(friday, Clock::new(13, 0, 0, 0))?), Ok(Some(true)));
/// assert_eq!(in_time(berlin_at(friday, Clock::new(13, 0, 0, 1))?), Ok(Some(false)));
/// assert_eq!(in_time(berlin_midnight(monday)?), Ok(None));
/// # Ok::<(), mako_fristen_host::Error>(())
/// ```
///
/// # Errors
///
/// [`Refusal::NoDate`], [`Refusal::InstantOutside`]; [`Refusal::LeavesCalendar`], if there is no
/// such Werktag and the Zuordnungsbeginn is yet to come.
pub fn eog_ankuendigung_fristgerecht(
    uez: Instant,
    zuordnungsbeginn: Date,
) -> Result<Option<bool>, Error> {
    let question = Question::at(Call::EogAnkuendigungFristgerecht, uez);
    Question { date: zuordnungsbeginn, ..question }.content()
}
