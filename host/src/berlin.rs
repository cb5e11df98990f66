//! Berlin's clock with plain types: UTC+1, and UTC+2 from the last Sunday of March 01:00 UTC to the
//! last Sunday of October 01:00 UTC, in every year. A date that is none of the calendar is refused
//! with [`Refusal::NoDate`], an instant outside its days with [`Refusal::InstantOutside`].

#[cfg(doc)]
use crate::Refusal;
use crate::{Call, Clock, Date, Error, Instant, Question, Sparte};

/// The instant at which Berlin's clock shows `at` on `date`; the earlier one if it does so twice,
/// as on 25 October 2026, a refusal if it never does, as on 29 March.
///
/// ```
/// use mako_fristen_host::{berlin_at, Clock, Date, Instant, Refusal};
///
/// let half_past_two = Clock::new(2, 30, 0, 0);
/// let utc_00_30 = Instant::new(1_792_888_200, 0);
/// assert_eq!(berlin_at(Date::new(2026, 10, 25), half_past_two), Ok(utc_00_30));
/// let absent = berlin_at(Date::new(2026, 3, 29), half_past_two);
/// assert_eq!(absent, Err(Refusal::LocalTimeAbsent.into()));
/// ```
///
/// # Errors
///
/// [`Refusal::NoDate`], [`Refusal::NoClock`]; [`Refusal::LocalTimeAbsent`] for 02:00 up to 03:00 on
/// the last Sunday of March.
pub fn berlin_at(date: Date, at: Clock) -> Result<Instant, Error> {
    Question::on(Call::BerlinAt, date).with_clock(at).content()
}

/// 00:00 in Berlin: 22:00 UTC of the day before in summer.
///
/// ```
/// use mako_fristen_host::{berlin_midnight, Date, Instant};
///
/// assert_eq!(berlin_midnight(Date::new(2026, 4, 2)), Ok(Instant::new(1_775_080_800, 0)));
/// ```
///
/// # Errors
///
/// [`Refusal::NoDate`].
pub fn berlin_midnight(date: Date) -> Result<Instant, Error> {
    Question::on(Call::BerlinMidnight, date).content()
}

/// 23:59:59.999999999 in Berlin, a nanosecond before the next day.
///
/// ```
/// use mako_fristen_host::{end_of_day_berlin, Date, Instant};
///
/// let end = Instant::new(1_775_080_799, 999_999_999);
/// assert_eq!(end_of_day_berlin(Date::new(2026, 4, 1)), Ok(end));
/// ```
///
/// # Errors
///
/// [`Refusal::NoDate`].
pub fn end_of_day_berlin(date: Date) -> Result<Instant, Error> {
    Question::on(Call::EndOfDayBerlin, date).content()
}

/// The beginning of `date`: 00:00 in Berlin for Strom, 06:00 for Gas. On 29 March 2026, when the
/// clocks go forward between the two, only five hours lie between.
///
/// ```
/// use mako_fristen_host::{tagesbeginn_utc, Date, Instant, Sparte};
///
/// let day = Date::new(2026, 3, 29);
/// let (utc_23_00, utc_04_00) = (Instant::new(1_774_738_800, 0), Instant::new(1_774_756_800, 0));
/// assert_eq!(tagesbeginn_utc(day, Sparte::Strom), Ok(utc_23_00));
/// assert_eq!(tagesbeginn_utc(day, Sparte::Gas), Ok(utc_04_00));
/// ```
///
/// # Errors
///
/// [`Refusal::NoDate`].
pub fn tagesbeginn_utc(date: Date, sparte: Sparte) -> Result<Instant, Error> {
    Question::on(Call::TagesbeginnUtc, date).with_code(sparte.code()).content()
}

/// The day in Berlin, which is not the UTC day: 1 April 2026, 22:00 UTC is 2 April.
///
/// ```
/// use mako_fristen_host::{berlin_date, Date, Instant};
///
/// assert_eq!(berlin_date(Instant::new(1_775_080_800, 0)), Ok(Date::new(2026, 4, 2)));
/// ```
///
/// # Errors
///
/// [`Refusal::InstantOutside`].
pub fn berlin_date(instant: Instant) -> Result<Date, Error> {
    Question::at(Call::BerlinDate, instant).content()
}

/// The day that begins at `instant`, the inverse of [`tagesbeginn_utc`]. No Strom day begins at
/// 06:00.
///
/// ```
/// use mako_fristen_host::{tag_des_beginns, Date, Instant, Refusal, Sparte};
///
/// let six_in_berlin = Instant::new(1_774_756_800, 0);
/// assert_eq!(tag_des_beginns(six_in_berlin, Sparte::Gas), Ok(Date::new(2026, 3, 29)));
/// let none = tag_des_beginns(six_in_berlin, Sparte::Strom);
/// assert_eq!(none, Err(Refusal::NoBeginning.into()));
/// ```
///
/// # Errors
///
/// [`Refusal::InstantOutside`], [`Refusal::NoBeginning`].
pub fn tag_des_beginns(instant: Instant, sparte: Sparte) -> Result<Date, Error> {
    Question::at(Call::TagDesBeginns, instant).with_code(sparte.code()).content()
}
