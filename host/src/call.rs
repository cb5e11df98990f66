//! The host calls by name, parameters and content. A new call is a new row of `calls!`, the last one,
//! with the parameters that docs/host-calls.md gives; its number is its place. Neither [`Call`] nor
//! [`Parameter`] nor [`Content`] is `non_exhaustive`: whoever goes through all calls is to be stopped
//! by a new one.
//!
//! `mf_questions` is no [`Call`]: a call has one question and one answer of 32 bytes, which is what
//! a [`Question`] puts and an [`Answer`](crate::Answer) reads. A file of questions has any number of
//! both, and each answer in it is read as one of the single call
//! ([`Frage::call`](crate::Frage::call)). Nor is `mf_portfolio`, which takes lists.

use crate::{ffi, Content, Parameter, Question};

/// The call with the question's numbers for the parameters, one after the other.
macro_rules! put {
    ($name:ident $q:ident $answer:ident [$($number:expr,)*]) => {
        ffi::$name($($number,)* $answer)
    };
    ($name:ident $q:ident $answer:ident [$($number:expr,)*] Date $($rest:ident)*) => {
        put!($name $q $answer [$($number,)* $q.date.year, $q.date.month, $q.date.day,] $($rest)*)
    };
    ($name:ident $q:ident $answer:ident [$($number:expr,)*] SecondDate $($rest:ident)*) => {
        put!($name $q $answer [$($number,)* $q.date2.year, $q.date2.month, $q.date2.day,] $($rest)*)
    };
    ($name:ident $q:ident $answer:ident [$($number:expr,)*] Instant $($rest:ident)*) => {
        put!($name $q $answer [$($number,)* $q.instant.seconds, $q.instant.nanos,] $($rest)*)
    };
    ($name:ident $q:ident $answer:ident [$($number:expr,)*] SecondInstant $($rest:ident)*) => {
        put!($name $q $answer [$($number,)* $q.instant2.seconds, $q.instant2.nanos,] $($rest)*)
    };
    ($name:ident $q:ident $answer:ident [$($number:expr,)*] Clock $($rest:ident)*) => {
        put!($name $q $answer [
            $($number,)* $q.clock.hour, $q.clock.minute, $q.clock.second, $q.clock.nanos,
        ] $($rest)*)
    };
    ($name:ident $q:ident $answer:ident [$($number:expr,)*] Count $($rest:ident)*) => {
        put!($name $q $answer [$($number,)* $q.n,] $($rest)*)
    };
    ($name:ident $q:ident $answer:ident [$($number:expr,)*] SecondCount $($rest:ident)*) => {
        put!($name $q $answer [$($number,)* $q.n2,] $($rest)*)
    };
    ($name:ident $q:ident $answer:ident [$($number:expr,)*] Pid $($rest:ident)*) => {
        put!($name $q $answer [$($number,)* $q.n,] $($rest)*)
    };
    ($name:ident $q:ident $answer:ident [$($number:expr,)*] Reason $($rest:ident)*) => {
        put!($name $q $answer [$($number,)* $q.reason.as_bytes(),] $($rest)*)
    };
    ($name:ident $q:ident $answer:ident [$($number:expr,)*] SecondSparte $($rest:ident)*) => {
        put!($name $q $answer [$($number,)* $q.code2,] $($rest)*)
    };
    ($name:ident $q:ident $answer:ident [$($number:expr,)*] $code:ident $($rest:ident)*) => {
        put!($name $q $answer [$($number,)* $q.code,] $($rest)*)
    };
}

macro_rules! calls {
    ($($call:ident $name:ident($($parameter:ident),+) -> $content:ident;)+) => {
        /// A host call with one question and one answer, which is each but
        /// [`mf_questions`](crate::ffi::mf_questions) and
        /// [`mf_portfolio`](crate::ffi::mf_portfolio). The order is that of docs/host-calls.md.
        #[derive(Clone, Copy, Debug, PartialEq, Eq, PartialOrd, Ord, Hash)]
        #[repr(u8)]
        pub enum Call {
            $(
                #[doc = concat!("[`", stringify!($name), "`](crate::ffi::", stringify!($name), ").")]
                $call,
            )+
        }

        impl Call {
            /// In the order of their numbers, from 0.
            pub const ALL: [Call; [$(Call::$call),+].len()] = [$(Call::$call),+];

            /// As C knows it: `mf_add_werktage`.
            #[must_use]
            pub const fn name(self) -> &'static str {
                match self {
                    $(Call::$call => stringify!($name),)+
                }
            }

            /// What it takes before its answer, in this order: of `mf_add_werktage` a date and a
            /// count.
            #[must_use]
            pub const fn parameters(self) -> &'static [Parameter] {
                match self {
                    $(Call::$call => &[$(Parameter::$parameter),+],)+
                }
            }

            /// What its answers hold, and so as which type they are read.
            ///
            /// ```
            /// use mako_fristen_host::{Call, Content};
            ///
            /// assert_eq!(Call::AddWerktage.content(), Content::Date);
            /// assert_eq!(Call::VorlaufCheckAt.content(), Content::Verdict);
            /// ```
            #[must_use]
            pub const fn content(self) -> Content {
                match self {
                    $(Call::$call => Content::$content,)+
                }
            }
        }

        pub(crate) fn put(question: &Question, answer: &mut [u8]) -> u8 {
            match question.call {
                $(Call::$call => put!($name question answer [] $($parameter)+),)+
            }
        }
    };
}

calls! {
    IsWerktag mf_is_werktag(Date) -> Werktag;
    NextWerktag mf_next_werktag(Date) -> Date;
    AddWerktage mf_add_werktage(Date, Count) -> Date;
    SubWerktage mf_sub_werktage(Date, Count) -> Date;
    WerktageBetween mf_werktage_between(Date, SecondDate) -> Count;
    AddMonths mf_add_months(Date, Count) -> Date;
    SubtractMonths mf_subtract_months(Date, Count) -> Date;
    BerlinAt mf_berlin_at(Date, Clock) -> Instant;
    BerlinMidnight mf_berlin_midnight(Date) -> Instant;
    EndOfDayBerlin mf_end_of_day_berlin(Date) -> Instant;
    TagesbeginnUtc mf_tagesbeginn_utc(Date, Sparte) -> Instant;
    BerlinDate mf_berlin_date(Instant) -> Date;
    TagDesBeginns mf_tag_des_beginns(Instant, Sparte) -> Date;
    ContrlDueAt mf_contrl_due_at(Instant, Anlass) -> Instant;
    AperakStromDueAt mf_aperak_strom_due_at(Instant) -> Instant;
    AperakStromAllgemeinDueAt mf_aperak_strom_allgemein_due_at(Instant) -> Instant;
    AperakGasFolgeprozessDueAt mf_aperak_gas_folgeprozess_due_at(Instant) -> GasDue;
    AperakGasInitialprozessDueAt mf_aperak_gas_initialprozess_due_at(Instant) -> GasDue;
    AperakGasDueAt mf_aperak_gas_due_at(Pid, Instant) -> GasDue;
    AddHours mf_add_hours(Instant, Count) -> Instant;
    DeadlineAtWerktage mf_deadline_at_werktage(Instant, Count) -> Instant;
    EndOfWerktagAfter mf_end_of_werktag_after(Instant, Count) -> Instant;
    NextWerktagAt mf_next_werktag_at(Instant, Clock) -> Instant;
    NthWerktagAt mf_nth_werktag_at(Instant, Count, Clock) -> Instant;
    FristDueAt mf_frist_due_at(Shape, Count, Clock, Instant) -> Instant;
    VorlaufCheck mf_vorlauf_check(VorlaufShape, Count, SecondCount, Date, SecondDate) -> Verdict;
    VorlaufCheckAt mf_vorlauf_check_at(
        VorlaufShape, Count, SecondCount, Instant, SecondInstant, SecondSparte
    ) -> Verdict;
    VorlaufSpan mf_vorlauf_span(VorlaufShape, Count, SecondCount, Date) -> Span;
    AbmeldungFuer mf_abmeldung_fuer(Reason, Eeg) -> AbmeldungVorlauf;
    AbmeldungCheck mf_abmeldung_check(Reason, Eeg, Date, SecondDate) -> AbmeldungVerdict;
    EogAnkuendigungFristgerecht mf_eog_ankuendigung_fristgerecht(Instant, Date) -> Ankuendigung;
    ContrlDueAtChange mf_contrl_due_at_change(Instant, Anlass, Date) -> Instant;
}

impl Call {
    /// Its place among the calls, from 0: `mf_add_werktage` has 2. It stays, so that what is stored can
    /// be read; a new call comes behind all others.
    #[must_use]
    pub const fn number(self) -> u8 {
        self as u8
    }

    /// Whether `parameter` is among its parameters.
    ///
    /// ```
    /// use mako_fristen_host::{Call, Parameter};
    ///
    /// assert!(Call::AddWerktage.takes(Parameter::Count));
    /// assert!(!Call::IsWerktag.takes(Parameter::Count));
    /// ```
    #[must_use]
    pub fn takes(self, parameter: Parameter) -> bool {
        self.parameters().contains(&parameter)
    }

    /// How many codes the call knows for its first code; none if it takes no code.
    ///
    /// ```
    /// use mako_fristen_host::Call;
    ///
    /// assert_eq!(Call::ContrlDueAt.codes(), Some(3));
    /// assert_eq!(Call::AddWerktage.codes(), None);
    /// ```
    #[must_use]
    pub fn codes(self) -> Option<u8> {
        self.parameters().iter().find_map(|parameter| parameter.codes())
    }
}
