//! The Werktag calendar with plain types. Every function refuses a date that is none from
//! 1 January 1996 to 31 December 2899 ([`Refusal::NoDate`]), and every step one that would leave
//! that range ([`Refusal::LeavesCalendar`]).

use crate::{Call, Date, DayReason, Error, Question, WerktageBetween};
#[cfg(doc)]
use crate::{Feiertag, Refusal};

/// Whether `date` is a Werktag: not Saturday, Sunday or a holiday of any Bundesland (GPKE Teil 1).
/// Karfreitag 2026 is none, and neither is Buß- und Bettag, a holiday of Sachsen alone.
///
/// ```
/// use mako_fristen_host::{is_werktag, Date};
///
/// assert_eq!(is_werktag(Date::new(2026, 4, 2)), Ok(true));
/// assert_eq!(is_werktag(Date::new(2026, 4, 3)), Ok(false));
/// assert_eq!(is_werktag(Date::new(2026, 11, 18)), Ok(false));
/// ```
///
/// # Errors
///
/// [`Refusal::NoDate`].
pub fn is_werktag(date: Date) -> Result<bool, Error> {
    Ok(day_reason(date)?.is_werktag())
}

/// Whether `date` is a Werktag, and if not, why: Saturday, Sunday or a holiday. A weekend goes before
/// a holiday, which [`Feiertag::on`] then names; of two holidays on one date it is the lower number.
///
/// ```
/// use mako_fristen_host::{day_reason, Date, DayReason, Feiertag};
///
/// assert_eq!(day_reason(Date::new(2026, 4, 2)), Ok(DayReason::Werktag));
/// let karfreitag = day_reason(Date::new(2026, 4, 3))?;
/// assert_eq!(karfreitag, DayReason::Feiertag(Feiertag::Karfreitag));
/// assert_eq!((karfreitag.number(), karfreitag.name()), (17, "Karfreitag"));
/// assert_eq!(day_reason(Date::new(2026, 3, 8)), Ok(DayReason::Sonntag), "and Frauentag");
/// let both = day_reason(Date::new(2008, 5, 1))?;
/// assert_eq!(both.name(), "Tag der Arbeit", "and Christi Himmelfahrt");
/// # Ok::<(), mako_fristen_host::Error>(())
/// ```
///
/// # Errors
///
/// [`Refusal::NoDate`].
pub fn day_reason(date: Date) -> Result<DayReason, Error> {
    Question::on(Call::IsWerktag, date).content()
}

/// The first Werktag on or after `from`: a Werktag is its own, Karfreitag's is the Tuesday.
///
/// ```
/// use mako_fristen_host::{next_werktag, Date};
///
/// assert_eq!(next_werktag(Date::new(2026, 4, 2)), Ok(Date::new(2026, 4, 2)));
/// assert_eq!(next_werktag(Date::new(2026, 4, 3)), Ok(Date::new(2026, 4, 7)));
/// ```
///
/// # Errors
///
/// [`Refusal::NoDate`], [`Refusal::LeavesCalendar`].
pub fn next_werktag(from: Date) -> Result<Date, Error> {
    Question::on(Call::NextWerktag, from).content()
}

/// The `n`-th Werktag after `from`; `from` itself, Werktag or not, for 0.
///
/// ```
/// use mako_fristen_host::{add_werktage, Date};
///
/// let (thursday, saturday) = (Date::new(2026, 4, 2), Date::new(2026, 4, 4));
/// assert_eq!(add_werktage(thursday, 1), Ok(Date::new(2026, 4, 7)));
/// assert_eq!(add_werktage(saturday, 0), Ok(saturday));
/// ```
///
/// # Errors
///
/// [`Refusal::NoDate`], [`Refusal::LeavesCalendar`].
pub fn add_werktage(from: Date, n: u32) -> Result<Date, Error> {
    step(Call::AddWerktage, from, n)
}

/// The `n`-th Werktag before `from`; `from` itself, Werktag or not, for 0. There is none before
/// 2 January 1996.
///
/// ```
/// use mako_fristen_host::{sub_werktage, Date, Refusal};
///
/// assert_eq!(sub_werktage(Date::new(2026, 4, 7), 1), Ok(Date::new(2026, 4, 2)));
/// assert_eq!(sub_werktage(Date::new(1996, 1, 2), 1), Err(Refusal::LeavesCalendar.into()));
/// ```
///
/// # Errors
///
/// [`Refusal::NoDate`], [`Refusal::LeavesCalendar`].
pub fn sub_werktage(from: Date, n: u32) -> Result<Date, Error> {
    step(Call::SubWerktage, from, n)
}

/// The Werktage after `from` up to and including `to`, 0 if `to` is not later; and how many days were
/// tested for it. Over Christmas and New Year 15 days have five.
///
/// ```
/// use mako_fristen_host::{werktage_between, Date};
///
/// let (before, after) = (Date::new(2025, 12, 23), Date::new(2026, 1, 7));
/// assert_eq!(werktage_between(before, after)?.werktage, 5);
/// assert_eq!(werktage_between(after, before)?.werktage, 0);
/// // The years between are read from a table: 357 days of 2025, and 7 of 2899.
/// let contract = werktage_between(before, Date::new(2899, 1, 7))?;
/// assert_eq!(contract.days_tested, 357 + 7);
/// # Ok::<(), mako_fristen_host::Error>(())
/// ```
///
/// # Errors
///
/// [`Refusal::NoDate`], for either date.
pub fn werktage_between(from: Date, to: Date) -> Result<WerktageBetween, Error> {
    Question::on(Call::WerktageBetween, from).with_second(to).content()
}

/// `n` months after `date`, the date itself for 0; a day that the month lacks becomes its last (BGB
/// §188).
///
/// ```
/// use mako_fristen_host::{add_months, Date};
///
/// assert_eq!(add_months(Date::new(2026, 1, 31), 1), Ok(Date::new(2026, 2, 28)));
/// ```
///
/// # Errors
///
/// [`Refusal::NoDate`], [`Refusal::LeavesCalendar`].
pub fn add_months(date: Date, n: u32) -> Result<Date, Error> {
    step(Call::AddMonths, date, n)
}

/// `n` months before `date`, the date itself for 0; a day that the month lacks becomes its last (BGB
/// §188).
///
/// ```
/// use mako_fristen_host::{subtract_months, Date};
///
/// assert_eq!(subtract_months(Date::new(2024, 3, 31), 1), Ok(Date::new(2024, 2, 29)));
/// ```
///
/// # Errors
///
/// [`Refusal::NoDate`], [`Refusal::LeavesCalendar`].
pub fn subtract_months(date: Date, n: u32) -> Result<Date, Error> {
    step(Call::SubtractMonths, date, n)
}

fn step(call: Call, from: Date, n: u32) -> Result<Date, Error> {
    Question::on(call, from).with_count(n).content()
}
