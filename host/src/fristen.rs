//! Due instants with plain types. Every function refuses a receipt outside the calendar's Berlin
//! days ([`Refusal::InstantOutside`]) and a due instant outside them ([`Refusal::LeavesCalendar`]).
//! The receipt day is the Berlin day; an end of day is 23:59:59.999999999 in Berlin.

#[cfg(doc)]
use crate::Refusal;
use crate::{Call, Clock, ContrlAnlass, Date, Error, GasDue, Instant, Question};

/// The label under which the original registers the due instant of [`contrl_due_at`], whatever the
/// Anlass. [`contrl_due_at_change`] is the same Frist.
pub const CONTRL_FRIST_LABEL: &str = "contrl-delivery-window";

/// The original's label of [`aperak_strom_due_at`], also for a receipt on a Saturday.
pub const APERAK_STROM_WINDOW_LABEL: &str = "aperak-strom-45min-window";

/// The original's label of [`aperak_strom_allgemein_due_at`].
pub const APERAK_STROM_ALLGEMEIN_LABEL: &str = "aperak-strom-naechster-wt-1200";

/// When the CONTRL is due: 6 hours, 45 minutes or 15 minutes later, by `anlass`. From 31 March or
/// 30 September 18:00 on and before 2 April or 2 October 00:00 it is due at that midnight.
///
/// ```
/// use mako_fristen_host::{berlin_at, berlin_midnight, contrl_due_at, Clock, ContrlAnlass, Date};
///
/// let last_of_march = |hour, minute, second| {
///     berlin_at(Date::new(2026, 3, 31), Clock::new(hour, minute, second, 0))
/// };
/// let due = |received| contrl_due_at(received, ContrlAnlass::Regelfall);
/// assert_eq!(due(last_of_march(11, 59, 59)?), last_of_march(17, 59, 59));
/// assert_eq!(due(last_of_march(12, 0, 0)?), berlin_midnight(Date::new(2026, 4, 2)));
/// # Ok::<(), mako_fristen_host::Error>(())
/// ```
///
/// # Errors
///
/// [`Refusal::InstantOutside`], [`Refusal::LeavesCalendar`].
pub fn contrl_due_at(received: Instant, anlass: ContrlAnlass) -> Result<Instant, Error> {
    contrl_question(received, anlass).content()
}

pub(crate) fn contrl_question(received: Instant, anlass: ContrlAnlass) -> Question {
    Question::at(Call::ContrlDueAt, received).with_code(anlass.code())
}

/// The same with the change day of the Formatumstellung, which is sometimes put off (document 02,
/// F-7): what would be due from 18:00 of the day before on and before 00:00 of the day after is due
/// at that midnight. There is no other window, about 1 April or 1 October neither, unless that is the
/// change day.
///
/// ```
/// use mako_fristen_host::{
///     berlin_at, berlin_midnight, contrl_due_at_change, Clock, ContrlAnlass, Date,
/// };
///
/// // Put off from 1 April.
/// let change_day = Date::new(2026, 6, 6);
/// let due = |received| contrl_due_at_change(received, ContrlAnlass::Regelfall, change_day);
/// let day_before = |hour, minute, second| {
///     berlin_at(Date::new(2026, 6, 5), Clock::new(hour, minute, second, 0))
/// };
/// assert_eq!(due(day_before(11, 59, 59)?), day_before(17, 59, 59));
/// assert_eq!(due(day_before(12, 0, 0)?), berlin_midnight(Date::new(2026, 6, 7)));
/// let last_of_march = |hour| berlin_at(Date::new(2026, 3, 31), Clock::new(hour, 0, 0, 0));
/// assert_eq!(due(last_of_march(12)?), last_of_march(18), "no window of that call");
/// # Ok::<(), mako_fristen_host::Error>(())
/// ```
///
/// # Errors
///
/// [`Refusal::NoDate`], [`Refusal::InstantOutside`], [`Refusal::LeavesCalendar`]; the last one also
/// for a change day whose day before or after leaves the calendar, whatever the due instant is.
pub fn contrl_due_at_change(
    received: Instant,
    anlass: ContrlAnlass,
    change_day: Date,
) -> Result<Instant, Error> {
    let question = Question::at(Call::ContrlDueAtChange, received).with_code(anlass.code());
    Question { date: change_day, ..question }.content()
}

/// The APERAK on a Strom UTILMD or ORDERS: 45 minutes; Sunday 12:00 if received on a Saturday.
/// Sundays and holidays are not special.
///
/// ```
/// use mako_fristen_host::{aperak_strom_due_at, berlin_at, Clock, Date};
///
/// let january = |day, hour, minute| {
///     berlin_at(Date::new(2026, 1, day), Clock::new(hour, minute, 0, 0))
/// };
/// assert_eq!(aperak_strom_due_at(january(10, 8, 0)?), january(11, 12, 0));
/// assert_eq!(aperak_strom_due_at(january(11, 8, 0)?), january(11, 8, 45));
/// # Ok::<(), mako_fristen_host::Error>(())
/// ```
///
/// # Errors
///
/// [`Refusal::InstantOutside`], [`Refusal::LeavesCalendar`].
pub fn aperak_strom_due_at(received: Instant) -> Result<Instant, Error> {
    Question::at(Call::AperakStromDueAt, received).content()
}

/// The APERAK on any other Strom message: 12:00 of the first Werktag after the receipt day. After
/// Gründonnerstag 2026 that is the Tuesday.
///
/// ```
/// use mako_fristen_host::{aperak_strom_allgemein_due_at, berlin_at, Clock, Date};
///
/// let april = |day, hour| berlin_at(Date::new(2026, 4, day), Clock::new(hour, 0, 0, 0));
/// assert_eq!(aperak_strom_allgemein_due_at(april(2, 9)?), april(7, 12));
/// # Ok::<(), mako_fristen_host::Error>(())
/// ```
///
/// # Errors
///
/// [`Refusal::InstantOutside`], [`Refusal::LeavesCalendar`].
pub fn aperak_strom_allgemein_due_at(received: Instant) -> Result<Instant, Error> {
    Question::at(Call::AperakStromAllgemeinDueAt, received).content()
}

/// The APERAK in a Gas follow-up: 12:00 of the first Werktag after the receipt day.
///
/// ```
/// use mako_fristen_host::{aperak_gas_folgeprozess_due_at, berlin_at, Clock, Date};
///
/// let april = |day, hour| berlin_at(Date::new(2026, 4, day), Clock::new(hour, 0, 0, 0));
/// assert_eq!(aperak_gas_folgeprozess_due_at(april(2, 9)?)?.due, april(7, 12)?);
/// # Ok::<(), mako_fristen_host::Error>(())
/// ```
///
/// # Errors
///
/// [`Refusal::InstantOutside`], [`Refusal::LeavesCalendar`].
pub fn aperak_gas_folgeprozess_due_at(received: Instant) -> Result<GasDue, Error> {
    Question::at(Call::AperakGasFolgeprozessDueAt, received).content()
}

/// The APERAK in a Gas initial process: the end of the third Werktag after the receipt day. From
/// Gründonnerstag 2026 on these are 7, 8 and 9 April.
///
/// ```
/// use mako_fristen_host::{
///     aperak_gas_initialprozess_due_at, berlin_midnight, end_of_day_berlin, Date,
/// };
///
/// let received = berlin_midnight(Date::new(2026, 4, 2))?;
/// let due = aperak_gas_initialprozess_due_at(received)?.due;
/// assert_eq!(due, end_of_day_berlin(Date::new(2026, 4, 9))?);
/// # Ok::<(), mako_fristen_host::Error>(())
/// ```
///
/// # Errors
///
/// [`Refusal::InstantOutside`], [`Refusal::LeavesCalendar`].
pub fn aperak_gas_initialprozess_due_at(received: Instant) -> Result<GasDue, Error> {
    Question::at(Call::AperakGasInitialprozessDueAt, received).content()
}

/// The APERAK on a Gas message by its Prüfidentifikator: 44001, 44016, 44039 and 44042 are initial
/// processes, every other number is a follow-up.
///
/// ```
/// use mako_fristen_host::{aperak_gas_due_at, berlin_midnight, Date, GasProzess};
///
/// let received = berlin_midnight(Date::new(2026, 4, 2))?;
/// assert_eq!(aperak_gas_due_at(44_001, received)?.kind, GasProzess::Initialprozess);
/// assert_eq!(aperak_gas_due_at(44_002, received)?.kind, GasProzess::Folgeprozess);
/// # Ok::<(), mako_fristen_host::Error>(())
/// ```
///
/// # Errors
///
/// [`Refusal::InstantOutside`], [`Refusal::LeavesCalendar`].
pub fn aperak_gas_due_at(pid: u32, received: Instant) -> Result<GasDue, Error> {
    Question::at(Call::AperakGasDueAt, received).with_count(pid).content()
}

/// `hours` later, on any day. Berlin's clock shows an hour more after 24 hours over 29 March 2026.
///
/// ```
/// use mako_fristen_host::{add_hours, berlin_at, berlin_midnight, Clock, Date};
///
/// let midnight = berlin_midnight(Date::new(2026, 3, 29))?;
/// let one_o_clock = berlin_at(Date::new(2026, 3, 30), Clock::new(1, 0, 0, 0));
/// assert_eq!(add_hours(midnight, 24), one_o_clock);
/// # Ok::<(), mako_fristen_host::Error>(())
/// ```
///
/// # Errors
///
/// [`Refusal::InstantOutside`], [`Refusal::LeavesCalendar`].
pub fn add_hours(from: Instant, hours: u32) -> Result<Instant, Error> {
    Question::at(Call::AddHours, from).with_count(hours).content()
}

/// The end of the day `werktage` Werktage after the day of `from`; of that day itself, Werktag or
/// not, for 0.
///
/// ```
/// use mako_fristen_host::{berlin_midnight, deadline_at_werktage, end_of_day_berlin, Date};
///
/// let saturday = Date::new(2026, 4, 4);
/// let from = berlin_midnight(saturday)?;
/// assert_eq!(deadline_at_werktage(from, 0), end_of_day_berlin(saturday));
/// assert_eq!(deadline_at_werktage(from, 2), end_of_day_berlin(Date::new(2026, 4, 8)));
/// # Ok::<(), mako_fristen_host::Error>(())
/// ```
///
/// # Errors
///
/// [`Refusal::InstantOutside`], [`Refusal::LeavesCalendar`].
pub fn deadline_at_werktage(from: Instant, werktage: u32) -> Result<Instant, Error> {
    Question::at(Call::DeadlineAtWerktage, from).with_count(werktage).content()
}

/// The same instant as [`deadline_at_werktage`], under the other name that the papers have for it.
///
/// ```
/// use mako_fristen_host::{berlin_midnight, end_of_day_berlin, end_of_werktag_after, Date};
///
/// let received = berlin_midnight(Date::new(2026, 4, 2))?;
/// assert_eq!(end_of_werktag_after(received, 1), end_of_day_berlin(Date::new(2026, 4, 7)));
/// # Ok::<(), mako_fristen_host::Error>(())
/// ```
///
/// # Errors
///
/// [`Refusal::InstantOutside`], [`Refusal::LeavesCalendar`].
pub fn end_of_werktag_after(received: Instant, werktage: u32) -> Result<Instant, Error> {
    Question::at(Call::EndOfWerktagAfter, received).with_count(werktage).content()
}

/// `at` on the first Werktag after the receipt day.
///
/// ```
/// use mako_fristen_host::{berlin_at, berlin_midnight, next_werktag_at, Clock, Date};
///
/// let (friday, nine) = (berlin_midnight(Date::new(2026, 1, 9))?, Clock::new(9, 0, 0, 0));
/// assert_eq!(next_werktag_at(friday, nine), berlin_at(Date::new(2026, 1, 12), nine));
/// # Ok::<(), mako_fristen_host::Error>(())
/// ```
///
/// # Errors
///
/// [`Refusal::InstantOutside`], [`Refusal::NoClock`], [`Refusal::LeavesCalendar`].
pub fn next_werktag_at(received: Instant, at: Clock) -> Result<Instant, Error> {
    Question::at(Call::NextWerktagAt, received).with_clock(at).content()
}

/// `at` on the `n`-th Werktag after the receipt day; 0 is taken as 1.
///
/// ```
/// use mako_fristen_host::{berlin_at, berlin_midnight, nth_werktag_at, Clock, Date};
///
/// let (friday, nine) = (berlin_midnight(Date::new(2026, 1, 9))?, Clock::new(9, 0, 0, 0));
/// assert_eq!(nth_werktag_at(friday, 3, nine), berlin_at(Date::new(2026, 1, 14), nine));
/// assert_eq!(nth_werktag_at(friday, 0, nine), nth_werktag_at(friday, 1, nine));
/// # Ok::<(), mako_fristen_host::Error>(())
/// ```
///
/// # Errors
///
/// [`Refusal::InstantOutside`], [`Refusal::NoClock`], [`Refusal::LeavesCalendar`].
pub fn nth_werktag_at(received: Instant, n: u32, at: Clock) -> Result<Instant, Error> {
    Question::at(Call::NthWerktagAt, received).with_count(n).with_clock(at).content()
}
