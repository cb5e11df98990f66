//! The host calls as C declares them, one row each, and a function over each that lends a slice.
//!
//! ```
//! use mako_fristen_host::ffi::mf_is_werktag;
//!
//! let mut answer = [0; 32];
//! assert_eq!(mf_is_werktag(2026, 4, 2, &mut answer), 0);
//! assert_eq!(answer[1], 0, "a Werktag");
//! assert_eq!(mf_is_werktag(2026, 4, 3, &mut answer), 0);
//! assert_eq!(answer[1], 17, "Karfreitag");
//! assert_eq!(mf_is_werktag(2026, 2, 29, &mut answer), 3, "no date");
//! assert_eq!(answer[1], 0, "and no Werktag: the number that is returned comes first");
//! assert_eq!(mf_is_werktag(2026, 4, 2, &mut answer[..31]), 1, "no room for an answer");
//! ```
//!
//! [`mf_questions`] takes no number: it is lent a file of questions, and as many bytes for their
//! answers, which docs/host-calls.md calls `answers`.
//!
//! ```
//! use mako_fristen_host::ffi::mf_questions;
//!
//! let mut answers = [7; 64];
//! assert_eq!(mf_questions(&[0; 64], &mut answers), 0);
//! assert_eq!((answers[0], answers[32]), (4, 4), "two CONTRL received in 1970");
//! assert_eq!(mf_questions(&[0; 63], &mut answers[..63]), 9, "no multiple of 32");
//! ```
//!
//! [`mf_portfolio`] reads two lists of days and writes a third, beside its answer.
//!
//! ```
//! use mako_fristen_host::ffi::mf_portfolio;
//!
//! // From 2 to 7 April 2026; from the day before the calendar's first.
//! let (from, to) = ([20_545, 9_495], [20_550, 20_550]);
//! let (mut counts, mut answer) = ([7; 2], [7; 32]);
//! assert_eq!(mf_portfolio(&from, &to, &mut counts, &mut answer), 0);
//! assert_eq!((counts, answer[4]), ([1, u32::MAX], 1), "one entry of the year index was read");
//! assert_eq!(mf_portfolio(&from, &to[1..], &mut counts, &mut answer), 10, "of other lengths");
//! assert_eq!((counts, answer[0]), ([1, u32::MAX], 10));
//! ```
//!
//! This is the only module with `unsafe`. A new call is a new row of `calls!`, with the parameters
//! that docs/host-calls.md gives before `answer`; `&reason` stands for a slice that is read, `*counts`
//! for one that is written, with the type of their entries. C sees a pointer and a length.

#![allow(unsafe_code)]
// The parameters of a call are the paper's: two dates are six, a clock and an instant as well.
#![allow(clippy::too_many_arguments)]

macro_rules! calls {
    ($($call:ident(
        $(&$slice:ident: $entry:ident $(,)?)* $(*$list:ident: $item:ident)?
        $($parameter:ident: $number:ty),*
    );)+) => {
        mod c {
            extern "C" {
                $(pub fn $call(
                    $($slice: *const $entry, _: usize,)* $($list: *mut $item, _: usize,)?
                    $($parameter: $number,)* answer: *mut u8, len: usize
                ) -> u8;)+
            }
        }
        $(
            /// Lends `answer`, of any length, to the call of this name; returns its number.
            #[must_use]
            pub fn $call(
                $($slice: &[$entry],)* $($list: &mut [$item],)? $($parameter: $number,)*
                answer: &mut [u8]
            ) -> u8 {
                // SAFETY: a pointer and its length are one slice's, lent for the call alone. The
                // call is proved to write nothing beyond `answer` and a list that it may write, and
                // to demand nothing of its caller.
                unsafe {
                    c::$call(
                        $($slice.as_ptr(), $slice.len(),)* $($list.as_mut_ptr(), $list.len(),)?
                        $($parameter,)* answer.as_mut_ptr(), answer.len()
                    )
                }
            }
        )+
    };
}

calls! {
    mf_is_werktag(year: u16, month: u8, day: u8);
    mf_next_werktag(year: u16, month: u8, day: u8);
    mf_add_werktage(year: u16, month: u8, day: u8, n: u32);
    mf_sub_werktage(year: u16, month: u8, day: u8, n: u32);
    mf_werktage_between(year: u16, month: u8, day: u8, year2: u16, month2: u8, day2: u8);
    mf_add_months(year: u16, month: u8, day: u8, n: u32);
    mf_subtract_months(year: u16, month: u8, day: u8, n: u32);
    mf_berlin_at(
        year: u16, month: u8, day: u8,
        hour: u8, minute: u8, second: u8, nanos_of_second: u32
    );
    mf_berlin_midnight(year: u16, month: u8, day: u8);
    mf_end_of_day_berlin(year: u16, month: u8, day: u8);
    mf_tagesbeginn_utc(year: u16, month: u8, day: u8, sparte: u8);
    mf_berlin_date(seconds: i64, nanos: u32);
    mf_tag_des_beginns(seconds: i64, nanos: u32, sparte: u8);
    mf_contrl_due_at(seconds: i64, nanos: u32, anlass: u8);
    mf_aperak_strom_due_at(seconds: i64, nanos: u32);
    mf_aperak_strom_allgemein_due_at(seconds: i64, nanos: u32);
    mf_aperak_gas_folgeprozess_due_at(seconds: i64, nanos: u32);
    mf_aperak_gas_initialprozess_due_at(seconds: i64, nanos: u32);
    mf_aperak_gas_due_at(pid: u32, seconds: i64, nanos: u32);
    mf_add_hours(seconds: i64, nanos: u32, hours: u32);
    mf_deadline_at_werktage(seconds: i64, nanos: u32, werktage: u32);
    mf_end_of_werktag_after(seconds: i64, nanos: u32, werktage: u32);
    mf_next_werktag_at(
        seconds: i64, nanos: u32,
        hour: u8, minute: u8, second: u8, nanos_of_second: u32
    );
    mf_nth_werktag_at(
        seconds: i64, nanos: u32, n: u32,
        hour: u8, minute: u8, second: u8, nanos_of_second: u32
    );
    mf_frist_due_at(
        shape: u8, werktage: u32,
        hour: u8, minute: u8, second: u8, nanos_of_second: u32,
        seconds: i64, nanos: u32
    );
    mf_vorlauf_check(
        shape: u8, count: u32, count2: u32,
        year: u16, month: u8, day: u8, year2: u16, month2: u8, day2: u8
    );
    mf_vorlauf_check_at(
        shape: u8, count: u32, count2: u32,
        seconds: i64, nanos: u32, seconds2: i64, nanos2: u32, sparte: u8
    );
    mf_vorlauf_span(shape: u8, count: u32, count2: u32, year: u16, month: u8, day: u8);
    mf_abmeldung_fuer(&reason: u8, eeg: u8);
    mf_abmeldung_check(
        &reason: u8, eeg: u8,
        year: u16, month: u8, day: u8, year2: u16, month2: u8, day2: u8
    );
    mf_eog_ankuendigung_fristgerecht(seconds: i64, nanos: u32, year: u16, month: u8, day: u8);
    mf_questions(&questions: u8);
    mf_portfolio(&from: u32, &to: u32, *counts: u32);
    mf_contrl_due_at_change(seconds: i64, nanos: u32, anlass: u8, year: u16, month: u8, day: u8);
}
