//! What the original answers to a question, in document 01's terms: the one place where an expected
//! answer is made.

mod change_day;
mod margin;
mod panics;
mod portfolio;
mod reason;
mod span;
mod tested;
mod verdict;
mod werktage;

pub use margin::{expected_of_the_checks, has_margin, margin};
pub use panics::{caught, Panic};
pub use portfolio::{
    count_both_ways, count_by_list, count_soon, expected_of_portfolio,
    refusal as refusal_of_portfolio, Count, Left, MOST_PAIRS, OUT_OF_RANGE,
};
pub use reason::{ALIKE, ENDS};
pub use span::expected_of_the_verdicts;
pub use werktage::{werktag, werktage_before};

use crate::records::{self, Record};
use crate::walk::is_far;
use crate::{days, instants};
use mako_fristen::antwort::FristShape;
use mako_fristen::HolidayCalendar::BdewMaKo;
use mako_fristen::{ContrlAnlass, Sparte};
use mako_fristen_host::{Answer, Call, Parameter, Question, Refusal};
use time::{Date, OffsetDateTime};

/// The last year of the original's date type, on either side of 0.
const LAST_YEAR_OF_TYPE: i64 = 9999;

/// The answer that document 01 makes of the original's; of a panic that is none of the known ones
/// it makes none.
pub type Expected = Result<Answer, Panic>;

/// # Errors
///
/// A panic that stands for no refusal.
pub fn expected(question: &Question) -> Expected {
    told(|| answered(question, WALKED))
}

/// The same with every count put to the original as it is, which then may walk until it
/// panics.
///
/// # Errors
///
/// A panic that stands for no refusal.
pub fn expected_uncapped(question: &Question) -> Expected {
    told(|| answered(question, Steps::Walked(|n, _| n)))
}

/// The same from the list of Werktage, which the original's own day test makes.
///
/// # Errors
///
/// A panic that stands for no refusal.
pub fn expected_by_list(question: &Question) -> Expected {
    told(|| answered(question, Steps::Listed))
}

/// The original's answer; from the list where it would walk far.
///
/// # Errors
///
/// A panic that stands for no refusal.
pub fn expected_soon(question: &Question) -> Expected {
    if is_far(question) {
        expected_by_list(question)
    } else {
        expected(question)
    }
}

/// The original's answer, if the list leads to the same. Else a kind that no call has.
///
/// # Errors
///
/// A panic that stands for no refusal.
pub fn expected_both_ways(question: &Question) -> Expected {
    let walked = expected(question)?;
    let same = expected_by_list(question)? == walked;
    Ok(if same { walked } else { contradicted() })
}

/// The answer where two statements of the original do not agree: it has a kind that no call has.
fn contradicted() -> Answer {
    Answer::default().with_kind(u8::MAX)
}

/// The answer to a record of a file: that of the single call to what stands in it.
///
/// # Errors
///
/// A panic that stands for no refusal.
pub fn expected_of_record(record: &Record) -> Expected {
    of_record(record, expected)
}

/// The same; from the list where the original would walk far.
///
/// # Errors
///
/// A panic that stands for no refusal.
pub fn expected_of_record_soon(record: &Record) -> Expected {
    of_record(record, expected_soon)
}

/// The same, if the original's walk and the list lead there. Else a kind that no call has.
///
/// # Errors
///
/// A panic that stands for no refusal.
pub fn expected_of_record_both_ways(record: &Record) -> Expected {
    of_record(record, expected_both_ways)
}

fn of_record(record: &Record, single: fn(&Question) -> Expected) -> Expected {
    match records::read(record) {
        Ok(question) => single(&question),
        Err(refusal) => Ok(Answer::refused(refusal)),
    }
}

fn told(original: impl FnOnce() -> Result<Answer, Refusal>) -> Expected {
    known(original).map(|answer| answer.unwrap_or_else(Answer::refused))
}

/// What the original gives, and for a known panic the refusal that it stands for.
fn known<T>(original: impl FnOnce() -> Result<T, Refusal>) -> Result<Result<T, Refusal>, Panic> {
    caught(original).or_else(|panic| panic.refusal().map(Err).ok_or(panic))
}

/// How steps over Werktage and counts of them are made.
#[derive(Clone, Copy)]
enum Steps {
    /// By the original, day by day.
    Walked(Cap),
    /// From the list of Werktage.
    Listed,
}

const WALKED: Steps = Steps::Walked(capped);

/// What is put to the original for a count of Werktage, with so many days left.
type Cap = fn(u32, u32) -> u32;

/// Each Werktag is a day further. So a count over the days that are left leaves the calendar, and
/// one more than these days is the same question, without a walk of millions of days.
fn capped(n: u32, days_left: u32) -> u32 {
    n.min(days_left + 1)
}

fn answered(question: &Question, steps: Steps) -> Result<Answer, Refusal> {
    if !question.call.parameters().iter().all(|&parameter| knows(question, parameter)) {
        return Err(Refusal::UnknownCode);
    }
    match question.call {
        Call::IsWerktag | Call::NextWerktag | Call::AddWerktage | Call::SubWerktage => {
            days_stepped(question, steps)
        }
        Call::WerktageBetween => count(question, steps),
        Call::AddMonths | Call::SubtractMonths => months(question),
        Call::BerlinAt | Call::BerlinMidnight | Call::EndOfDayBerlin | Call::TagesbeginnUtc => {
            clock_on_a_date(question)
        }
        Call::BerlinDate | Call::TagDesBeginns => day_of_an_instant(question),
        Call::AddHours | Call::DeadlineAtWerktage | Call::EndOfWerktagAfter => {
            after_an_instant(question, steps)
        }
        Call::NextWerktagAt | Call::NthWerktagAt => clock_on_a_werktag(question, steps),
        Call::FristDueAt => answer_due(question, steps),
        Call::VorlaufCheck | Call::VorlaufCheckAt => verdict::of_shape(question, steps),
        Call::VorlaufSpan => span::of_shape(question, steps),
        Call::AbmeldungFuer | Call::AbmeldungCheck => verdict::of_reason(question, steps),
        Call::EogAnkuendigungFristgerecht => verdict::of_announcement(question, steps),
        Call::ContrlDueAtChange => change_day::contrl_due_at(question),
        _ => message_due(question),
    }
}

/// Whether the parameter is no code, or one that document 01 has.
fn knows(question: &Question, parameter: Parameter) -> bool {
    let second = parameter == Parameter::SecondSparte;
    let code = if second { question.code2 } else { question.code };
    parameter.codes().is_none_or(|codes| code < codes)
}

fn days_stepped(question: &Question, steps: Steps) -> Result<Answer, Refusal> {
    let date = days::given(question.date)?;
    match question.call {
        Call::IsWerktag => Ok(Answer::default().with_kind(reason::of_day(date))),
        Call::NextWerktag => dated(next_werktag(date)),
        Call::AddWerktage => dated(werktage_on(date, question.n, steps)),
        _ => dated(werktage_back(date, question.n, steps)),
    }
}

fn count(question: &Question, steps: Steps) -> Result<Answer, Refusal> {
    let (from, to) = (days::given(question.date)?, days::given(question.date2)?);
    let count = werktage_between(from, to, steps);
    Ok(tested::told_in(Answer::default().with_count(count), from, to))
}

fn months(question: &Question) -> Result<Answer, Refusal> {
    let (date, n) = (days::given(question.date)?, question.n);
    dated(match question.call {
        Call::AddMonths => months_on(date, n),
        _ => months_back(date, n),
    })
}

fn dated(date: Result<Date, Refusal>) -> Result<Answer, Refusal> {
    Ok(Answer::default().with_date(host_date(date?)?))
}

fn host_date(date: Date) -> Result<mako_fristen_host::Date, Refusal> {
    days::to_host(date).ok_or(Refusal::LeavesCalendar)
}

fn next_werktag(date: Date) -> Result<Date, Refusal> {
    inside(mako_fristen::next_werktag(date, BdewMaKo))
}

fn werktage_on(date: Date, n: u32, steps: Steps) -> Result<Date, Refusal> {
    match steps {
        Steps::Walked(cap) => {
            let n = cap(n, days::left(date));
            inside(mako_fristen::add_werktage(date, n, BdewMaKo))
        }
        Steps::Listed => werktage::on(date, n),
    }
}

fn werktage_back(date: Date, n: u32, steps: Steps) -> Result<Date, Refusal> {
    match steps {
        Steps::Walked(cap) => {
            let n = cap(n, days::index(date));
            inside(mako_fristen::sub_werktage(date, n, BdewMaKo))
        }
        Steps::Listed => werktage::back(date, n),
    }
}

fn werktage_between(from: Date, to: Date, steps: Steps) -> u32 {
    match steps {
        Steps::Walked(_) => mako_fristen::werktage_between(from, to, BdewMaKo),
        Steps::Listed => werktage::between(from, to),
    }
}

fn months_on(date: Date, n: u32) -> Result<Date, Refusal> {
    shift(date, n.into(), || mako_fristen::add_months(date, n))
}

fn months_back(date: Date, n: u32) -> Result<Date, Refusal> {
    shift(date, -i64::from(n), || mako_fristen::subtract_months(date, n))
}

/// The date, if the calendar has it.
fn inside(date: Date) -> Result<Date, Refusal> {
    host_date(date).map(|_| date)
}

/// A shift by months. Where the year passes its date type's range, the original returns the date
/// unshifted, which looks like an answer; document 01 says 8. So that year is found here.
fn shift(date: Date, by: i64, original: impl FnOnce() -> Date) -> Result<Date, Refusal> {
    let months = i64::from(date.year()) * 12 + i64::from(u8::from(date.month())) - 1 + by;
    if months.div_euclid(12).abs() > LAST_YEAR_OF_TYPE {
        return Err(Refusal::LeavesCalendar);
    }
    inside(original())
}

fn clock_on_a_date(question: &Question) -> Result<Answer, Refusal> {
    let date = days::given(question.date)?;
    match question.call {
        Call::BerlinAt => {
            let at = instants::given_clock(question.clock)?;
            due(mako_fristen::berlin_at(date, at))
        }
        Call::BerlinMidnight => due(mako_fristen::berlin_midnight(date)),
        Call::EndOfDayBerlin => due(mako_fristen::end_of_day_berlin(date)),
        _ => due(mako_fristen::tagesbeginn_utc(date, sparte(question.code))),
    }
}

fn day_of_an_instant(question: &Question) -> Result<Answer, Refusal> {
    let instant = instants::given(question.instant)?;
    dated(if question.call == Call::BerlinDate {
        inside(mako_fristen::berlin_date(instant))
    } else {
        day_begun(instant, question.code)
    })
}

/// The day that begins at the instant in the Sparte of the code.
fn day_begun(instant: OffsetDateTime, code: u8) -> Result<Date, Refusal> {
    let day = mako_fristen::tag_des_beginns(instant, sparte(code));
    inside(day.map_err(|_| Refusal::NoBeginning)?)
}

fn message_due(question: &Question) -> Result<Answer, Refusal> {
    let received = instants::given(question.instant)?;
    match question.call {
        Call::ContrlDueAt => due(mako_fristen::contrl_due_at(received, anlass(question.code))),
        Call::AperakStromDueAt => due(mako_fristen::aperak_strom_due_at(received)),
        Call::AperakStromAllgemeinDueAt => {
            due(mako_fristen::aperak_strom_allgemein_due_at(received))
        }
        Call::AperakGasFolgeprozessDueAt => {
            due(mako_fristen::aperak_gas_folgeprozess_due_at(received))
        }
        Call::AperakGasInitialprozessDueAt => {
            Ok(due(mako_fristen::aperak_gas_initialprozess_due_at(received))?.with_kind(1))
        }
        Call::AperakGasDueAt => {
            let (label, at) = mako_fristen::aperak_gas_due_at(question.n, received);
            let initial = label == mako_fristen::APERAK_GAS_INITIALPROZESS_LABEL;
            Ok(due(at)?.with_kind(initial.into()))
        }
        other => unreachable!("{} is no message", other.name()),
    }
}

fn after_an_instant(question: &Question, steps: Steps) -> Result<Answer, Refusal> {
    let (from, n) = (instants::given(question.instant)?, question.n);
    if question.call == Call::AddHours {
        return due(mako_fristen::add_hours(from, n));
    }
    let (from, werktage) = receipt(from, n, steps)?;
    due(match question.call {
        Call::DeadlineAtWerktage => mako_fristen::deadline_at_werktage(from, werktage, BdewMaKo),
        _ => mako_fristen::end_of_werktag_after(from, werktage, BdewMaKo),
    })
}

fn clock_on_a_werktag(question: &Question, steps: Steps) -> Result<Answer, Refusal> {
    let received = instants::given(question.instant)?;
    let at = instants::given_clock(question.clock)?;
    if question.call == Call::NextWerktagAt {
        return due(mako_fristen::next_werktag_at(received, at, BdewMaKo));
    }
    let (received, n) = receipt(received, question.n, steps)?;
    due(mako_fristen::nth_werktag_at(received, n, at, BdewMaKo))
}

/// A clock or count that the shape does not have is not looked at.
fn answer_due(question: &Question, steps: Steps) -> Result<Answer, Refusal> {
    let received = instants::given(question.instant)?;
    let at = instants::given_clock(question.clock);
    let (received, shape) = match question.code {
        0 => {
            let at = at?;
            let (received, werktage) = receipt(received, question.n, steps)?;
            (received, FristShape::WerktagAt { werktage, at })
        }
        1 => {
            let (received, werktage) = receipt(received, question.n, steps)?;
            (received, FristShape::EndOfWerktag(werktage))
        }
        2 => (received, FristShape::SameDayAt(at?)),
        _ => (received, FristShape::SameDay),
    };
    due(shape.due_at(received, BdewMaKo))
}

/// What is put to the original for a receipt and Werktage after its day. From the list that is the
/// day of all Werktage but one, and the last is its own.
fn receipt(
    received: OffsetDateTime,
    n: u32,
    steps: Steps,
) -> Result<(OffsetDateTime, u32), Refusal> {
    let day = mako_fristen::berlin_date(received);
    Ok(match steps {
        Steps::Walked(cap) => (received, cap(n, days::left(day))),
        Steps::Listed if n > 1 => (mako_fristen::berlin_midnight(werktage::on(day, n - 1)?), 1),
        Steps::Listed => (received, n),
    })
}

/// An instant whose Berlin day must be one of the calendar.
fn due(at: OffsetDateTime) -> Result<Answer, Refusal> {
    inside(mako_fristen::berlin_date(at))?;
    Ok(Answer::default().with_instant(instants::to_host(at)))
}

fn anlass(code: u8) -> ContrlAnlass {
    use ContrlAnlass::{GasAlocat, Regelfall, StromUtilmdOderOrders};
    [Regelfall, StromUtilmdOderOrders, GasAlocat][usize::from(code)]
}

fn sparte(code: u8) -> Sparte {
    [Sparte::Strom, Sparte::Gas][usize::from(code)]
}
