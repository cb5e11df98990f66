//! The host calls of `mako_fristen`, for Rust.
//!
//! | Question | Answer |
//! |---|---|
//! | *Is this date a Werktag? Why not?* | [`is_werktag`], [`day_reason`] |
//! | *Which is the first Werktag on or after it?* | [`next_werktag`] |
//! | *Which day is n Werktage later, or earlier?* | [`add_werktage`], [`sub_werktage`] |
//! | *How many Werktage lie between two dates? How many days were tested?* | [`werktage_between`] |
//! | *Which day is n months later, or earlier?* | [`add_months`], [`subtract_months`] |
//! | *At which instant does Berlin's clock show a time?* | [`berlin_at`] |
//! | *At which instant does a day in Berlin begin and end?* | [`berlin_midnight`], [`end_of_day_berlin`] |
//! | *And in a Sparte? Which day begins then?* | [`tagesbeginn_utc`], [`tag_des_beginns`] |
//! | *Which day is it in Berlin?* | [`berlin_date`] |
//! | *When is a CONTRL due?* | [`contrl_due_at`] |
//! | *And with a change day that is put off?* | [`contrl_due_at_change`] |
//! | *When is an APERAK due, of Strom?* | [`aperak_strom_due_at`], [`aperak_strom_allgemein_due_at`] |
//! | *And of Gas, by the Prüfidentifikator?* | [`aperak_gas_due_at`] |
//! | *And by the process?* | [`aperak_gas_folgeprozess_due_at`], [`aperak_gas_initialprozess_due_at`] |
//! | *When is an answer due?* | [`FristShape::due_at`] |
//! | *Which instant is n hours later?* | [`add_hours`] |
//! | *When does the n-th Werktag after it end?* | [`deadline_at_werktage`], [`end_of_werktag_after`] |
//! | *When does it reach a clock time?* | [`next_werktag_at`], [`nth_werktag_at`] |
//! | *Was a message sent in time for the date it carries?* | [`VorlaufShape::check`], [`VorlaufShape::check_at`] |
//! | *Which dates may a message of a day carry?* | [`VorlaufShape::span`] |
//! | *Which Vorlauffrist has a deregistration?* | [`AbmeldungVorlauf::fuer`] |
//! | *And was it kept?* | [`AbmeldungVorlauf::check`] |
//! | *Did the 13:00 announcement come in time?* | [`eog_ankuendigung_fristgerecht`] |
//! | *What is the answer to each of a day's questions?* | [`fragen`] |
//! | *How many Werktage has each contract of a portfolio?* | [`portfolio`], [`portfolio_counts`] |
//!
//! A call answers, or refuses with one of the numbers of documents 01 and 02, which [`Refusal`]
//! names. What is neither is an [`Error::Unreadable`]. No input makes a function of this crate panic.
//! [`Question`] puts any call as a value, [`Frage`] the four that a file of questions has, and
//! [`ffi`] has the calls themselves, with an answer of any length.
//!
//! A service that receives a message, sends its CONTRL in time and judges the date that it carries:
//!
//! ```
//! use mako_fristen_host::{
//!     berlin_date, contrl_due_at, ContrlAnlass, Date, Error, Instant, Judgement, Refusal,
//!     VorlaufShape, VorlaufVerdict,
//! };
//! use std::time::{Duration, SystemTime, UNIX_EPOCH};
//!
//! /// When the CONTRL is due, and whether the message came five Werktage before `anchor`.
//! fn receive(at: SystemTime, anchor: Date) -> Result<(SystemTime, Judgement), Error> {
//!     let at = Instant::from(at);
//!     let due = contrl_due_at(at, ContrlAnlass::StromUtilmdOderOrders)?;
//!     let judgement = VorlaufShape::LatestWerktageBefore(5).check(berlin_date(at)?, anchor)?;
//!     Ok((SystemTime::try_from(due)?, judgement))
//! }
//!
//! // 23 December 2025, 10:00 in Berlin: the fifth Werktag before 6 January 2026.
//! let received = UNIX_EPOCH + Duration::from_secs(1_766_480_400);
//! let (due, judgement) = receive(received, Date::new(2026, 1, 6))?;
//! assert_eq!(due, received + Duration::from_secs(15 * 60));
//! assert_eq!(judgement, Judgement { verdict: VorlaufVerdict::Ok, margin: 0 });
//! let (_, judgement) = receive(received, Date::new(2026, 1, 5))?;
//! assert!(matches!(judgement.verdict, VorlaufVerdict::TooLate { shortfall_wt: 1, .. }));
//! assert_eq!(judgement.margin, -1);
//! let refused = receive(UNIX_EPOCH, Date::new(2026, 1, 5));
//! assert_eq!(refused, Err(Error::Refused(Refusal::InstantOutside)));
//! # Ok::<(), Error>(())
//! ```
//!
//! # Linking
//!
//! The calls stand in the archive `libmako_fristen.a`, which `./fristen` builds and puts in
//! target/staticlib. The build script takes it from there, or from the folder that the variable
//! `MAKO_FRISTEN_LIB` names, and says so if there is none. Nothing is needed when a program runs.
//!
//! # Refusals
//!
//! A refusal is no verdict: it says that the question has no answer, since a date or an instant
//! lies outside the calendar, a time is none, or a result leaves the calendar. It depends on the
//! question alone, so asking again does not help. Each function lists its own.
//!
//! # Answers that cannot be read
//!
//! Every byte of an answer is looked at. A number or a kind that the documents do not have for the
//! call, something in a field that the kind does not fill, a date or an instant outside the calendar,
//! a number of days tested that no two dates have, a margin that its verdict cannot have, a count of a
//! portfolio that its pair cannot have: each is an [`Error::Unreadable`], from any function, and never
//! taken for the answer next to it.
//! It comes only from an archive of another version than this crate. A kind that means something else
//! in another version is still a kind: [`check_archive`], at the start of a service, finds that too.
//!
//! # Threads, memory, time
//!
//! The calls have no state, and read neither a clock nor a file: any number of threads may ask at
//! the same time, without a lock, and the same question always has the same answer. They take no
//! memory from the heap; [`fragen`], [`answers`] and [`answer_records`] do, for the questions and
//! answers of a day, and [`portfolio`] for its lists. Steps and counts read whole years from a table;
//! docs/BENCHMARKS.md has the times.

#![deny(missing_docs)]
#![deny(unsafe_code)]

mod abmeldung;
mod ankuendigung;
mod anlass;
mod answer;
mod antwort;
mod archive;
mod berlin;
mod berlin_time;
mod bytes;
mod call;
mod clock;
mod content;
mod date;
mod day_reason;
mod eeg;
mod error;
mod feiertage;
pub mod ffi;
mod fields;
mod frage;
mod fragen;
mod fragesatz;
mod frist_shape;
mod fristen;
mod gas;
mod instant;
mod kalender;
mod parameter;
mod portfolio;
mod question;
mod reason;
mod refusal;
mod span;
mod sparte;
mod text;
mod unreadable;
mod verdict;
mod vorlauf_shape;
mod weekday;
mod werktage_between;

pub use abmeldung::AbmeldungVorlauf;
pub use ankuendigung::eog_ankuendigung_fristgerecht;
pub use anlass::ContrlAnlass;
pub use answer::Answer;
pub use antwort::Antwort;
pub use archive::check_archive;
pub use berlin::{
    berlin_at, berlin_date, berlin_midnight, end_of_day_berlin, tag_des_beginns, tagesbeginn_utc,
};
pub use berlin_time::BerlinTime;
pub use call::Call;
pub use clock::{Clock, ClockError};
pub use content::Content;
pub use date::{Date, DateError};
pub use day_reason::DayReason;
pub use eeg::Eeg;
pub use error::Error;
pub use feiertage::Feiertag;
pub use frage::Frage;
pub use fragen::{answer_records, answers, fragen, MOST_QUESTIONS};
pub use fragesatz::Fragesatz;
pub use frist_shape::FristShape;
pub use fristen::{
    add_hours, aperak_gas_due_at, aperak_gas_folgeprozess_due_at, aperak_gas_initialprozess_due_at,
    aperak_strom_allgemein_due_at, aperak_strom_due_at, contrl_due_at, contrl_due_at_change,
    deadline_at_werktage, end_of_werktag_after, next_werktag_at, nth_werktag_at,
    APERAK_STROM_ALLGEMEIN_LABEL, APERAK_STROM_WINDOW_LABEL, CONTRL_FRIST_LABEL,
};
pub use gas::{GasDue, GasProzess};
pub use instant::{Instant, InstantError};
pub use kalender::{
    add_months, add_werktage, day_reason, is_werktag, next_werktag, sub_werktage, subtract_months,
    werktage_between,
};
pub use parameter::Parameter;
pub use portfolio::{portfolio, portfolio_counts, MOST_PAIRS, OUT_OF_RANGE};
pub use question::Question;
pub use reason::Reason;
pub use refusal::Refusal;
pub use span::Span;
pub use sparte::Sparte;
pub use unreadable::Unreadable;
pub use verdict::{Judgement, VorlaufVerdict};
pub use vorlauf_shape::VorlaufShape;
pub use weekday::Weekday;
pub use werktage_between::WerktageBetween;

/// The examples of README.md are tests as well.
#[cfg(doctest)]
#[doc = include_str!("../README.md")]
struct Readme;
