//! The original's panics: the four that stand for a refusal, and any other, which is told.

use mako_fristen_host::Refusal;
use std::cell::{Cell, RefCell};
use std::fmt;
use std::panic::{self, AssertUnwindSafe, PanicHookInfo};
use std::sync::Once;

/// The original's lib.rs, where `original/build.rs` puts it.
const LIB: &str = "/out/lib.rs";
const DATE_TIME: &str = "/time-0.3.9/src/primitive_date_time.rs";

/// What the original raises on questions within document 01's limits: the end of the file's name,
/// the message, and the refusal. After a message with a space at its end more may follow.
const KNOWN: [(&str, &str, Refusal); 4] = [
    // A step on past the year 9999.
    (LIB, "date overflow", Refusal::LeavesCalendar),
    // A step back past the year 0, in which the algorithm for Easter ends.
    (LIB, "algorithm yields valid date: ", Refusal::LeavesCalendar),
    // Hours past the year 9999.
    (DATE_TIME, "resulting value is out of range", Refusal::LeavesCalendar),
    // A local time that Berlin's clock does not show.
    (LIB, "CRITICAL: timezone database failure — could not resolve ", Refusal::LocalTimeAbsent),
];

/// What was said, and where.
#[derive(Clone, Debug, Default, PartialEq, Eq)]
pub struct Panic {
    message: String,
    file: String,
    line: u32,
}

impl Panic {
    fn of(info: &PanicHookInfo) -> Panic {
        let payload = info.payload();
        let text = payload.downcast_ref::<String>().map(String::as_str);
        let text = text.or_else(|| payload.downcast_ref::<&str>().copied());
        let (file, line) = info.location().map_or(("", 0), |at| (at.file(), at.line()));
        Panic { message: text.unwrap_or("no text").to_owned(), file: file.to_owned(), line }
    }

    /// The refusal that the panic stands for, if it is one of the known.
    #[must_use]
    pub fn refusal(&self) -> Option<Refusal> {
        let says = |text: &str| {
            self.message == text || text.ends_with(' ') && self.message.starts_with(text)
        };
        let known = KNOWN.iter().find(|(file, text, _)| self.file.ends_with(file) && says(text));
        known.map(|&(_, _, refusal)| refusal)
    }
}

impl fmt::Display for Panic {
    fn fmt(&self, f: &mut fmt::Formatter<'_>) -> fmt::Result {
        write!(f, "an unknown panic, '{}', in {}:{}", self.message, self.file, self.line)
    }
}

thread_local! {
    static QUIET: Cell<bool> = const { Cell::new(false) };
    static LAST: RefCell<Option<Panic>> = const { RefCell::new(None) };
}

/// What the work gives, or its panic, of which stderr then has no word.
///
/// # Errors
///
/// The panic, known or not.
pub fn caught<T>(work: impl FnOnce() -> T) -> Result<T, Panic> {
    static HOOK: Once = Once::new();
    HOOK.call_once(|| {
        let loud = panic::take_hook();
        panic::set_hook(Box::new(move |info| {
            if QUIET.get() {
                LAST.set(Some(Panic::of(info)));
            } else {
                loud(info);
            }
        }));
    });
    let before = QUIET.replace(true);
    let result = panic::catch_unwind(AssertUnwindSafe(work));
    QUIET.set(before);
    result.map_err(|_| LAST.take().unwrap_or_default())
}

#[cfg(test)]
mod tests {
    use super::{caught, Panic, DATE_TIME, KNOWN, LIB};
    use mako_fristen::HolidayCalendar::BdewMaKo;
    use mako_fristen_host::Refusal;
    use time::macros::{date, datetime, time};

    fn panic(message: &str, file: &str) -> Panic {
        Panic { message: message.to_owned(), file: format!("/any/folder{file}"), line: 1 }
    }

    /// Each of the known, as the original raises it.
    #[test]
    fn the_known_are_raised_and_stand_for_their_refusals() {
        let on = caught(|| mako_fristen::add_werktage(date!(9999 - 12 - 31), 1, BdewMaKo));
        let back = caught(|| mako_fristen::is_werktag(date!(-0002 - 12 - 30), BdewMaKo));
        let hours = caught(|| mako_fristen::add_hours(datetime!(9999-12-31 23:00 UTC), 1));
        let absent = caught(|| mako_fristen::berlin_at(date!(1996 - 03 - 31), time!(2:00)));
        let raised = [on.err(), back.err(), hours.err(), absent.err()];
        for (panic, (file, text, refusal)) in raised.into_iter().zip(KNOWN) {
            let panic = panic.expect("a panic");
            assert!(panic.file.ends_with(file) && panic.message.starts_with(text), "{panic}");
            assert_eq!(panic.refusal(), Some(refusal), "{panic}");
        }
    }

    #[test]
    fn any_other_stands_for_none() {
        let made_up = caught(|| -> u8 { panic!("made up") }).expect_err("a panic");
        assert_eq!((made_up.message.as_str(), made_up.refusal()), ("made up", None));
        assert!(made_up.file.ends_with("panics.rs") && made_up.line > 0, "{made_up}");
        let here = caught(|| -> u8 { panic!("date overflow") }).expect_err("a panic");
        assert_eq!(here.refusal(), None, "the message of a known one, but not its file");
        for (message, file) in [
            ("", LIB),
            ("date", LIB),
            ("date underflow", LIB),
            ("date overflow — unreachable for any practical date", LIB),
            ("date overflow", "/out/vorlauf.rs"),
            ("date overflow", DATE_TIME),
            ("algorithm yields valid month index: TryFromIntError(())", LIB),
            ("could not resolve 2:00:00.0", LIB),
            ("attempt to add with overflow", LIB),
            ("resulting value is out of range", LIB),
        ] {
            assert_eq!(panic(message, file).refusal(), None, "{message} in {file}");
        }
    }

    #[test]
    fn a_known_message_may_end_otherwise_only_where_more_follows() {
        let absent = "CRITICAL: timezone database failure — could not resolve 2:00:00.0 anywhere";
        assert_eq!(panic(absent, LIB).refusal(), Some(Refusal::LocalTimeAbsent));
        assert_eq!(panic("date overflow ", LIB).refusal(), None);
    }

    #[test]
    fn work_without_a_panic_gives_its_result() {
        assert_eq!(caught(|| 7), Ok(7));
        assert_eq!(caught(|| caught(|| -> u8 { panic!("inner") }).is_err()), Ok(true));
        let outer = caught(|| {
            let _ = caught(|| -> u8 { panic!("inner") });
            panic!("outer")
        });
        assert_eq!(outer.map_err(|panic: Panic| panic.message), Err::<(), _>("outer".to_owned()));
    }
}
