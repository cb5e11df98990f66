use crate::Feiertag;
use std::fmt;

/// What the day test says of a date ([`day_reason`](crate::day_reason)): that it is a Werktag, or why
/// it is none. A weekend goes before a holiday, and of two holidays on one date the lower number is
/// given.
///
/// ```
/// use mako_fristen_host::{DayReason, Feiertag};
///
/// let karfreitag = DayReason::Feiertag(Feiertag::Karfreitag);
/// assert_eq!((karfreitag.number(), karfreitag.name()), (17, "Karfreitag"));
/// assert_eq!(karfreitag.to_string(), "Karfreitag");
/// assert!(!karfreitag.is_werktag());
/// ```
#[derive(Clone, Copy, Debug, PartialEq, Eq, Hash)]
pub enum DayReason {
    /// 0: open.
    Werktag,
    /// 1: Saturday, a holiday or not.
    Samstag,
    /// 2: Sunday, a holiday or not.
    Sonntag,
    /// 3 to 22: a holiday on a weekday. No date has Pfingstsonntag, which is always a Sunday; its
    /// number is one of the list all the same.
    Feiertag(Feiertag),
}

impl DayReason {
    /// The kind of the day test's answer. A refused call has kind 0 too: the refusal number comes
    /// first.
    ///
    /// ```
    /// use mako_fristen_host::DayReason;
    ///
    /// assert_eq!(DayReason::Sonntag.number(), 2);
    /// ```
    #[must_use]
    pub const fn number(self) -> u8 {
        match self {
            DayReason::Werktag => 0,
            DayReason::Samstag => 1,
            DayReason::Sonntag => 2,
            DayReason::Feiertag(holiday) => holiday.number(),
        }
    }

    /// The reason of a number; none for one over 22.
    ///
    /// ```
    /// use mako_fristen_host::{DayReason, Feiertag};
    ///
    /// assert_eq!(DayReason::of_number(0), Some(DayReason::Werktag));
    /// assert_eq!(DayReason::of_number(3), Some(DayReason::Feiertag(Feiertag::Neujahr)));
    /// assert_eq!(DayReason::of_number(23), None);
    /// ```
    #[must_use]
    pub fn of_number(number: u8) -> Option<DayReason> {
        match number {
            0 => Some(DayReason::Werktag),
            1 => Some(DayReason::Samstag),
            2 => Some(DayReason::Sonntag),
            _ => Feiertag::of_number(number).map(DayReason::Feiertag),
        }
    }

    /// The German name: `Werktag`, `Samstag`, `Sonntag` or the holiday's.
    #[must_use]
    pub const fn name(self) -> &'static str {
        match self {
            DayReason::Werktag => "Werktag",
            DayReason::Samstag => "Samstag",
            DayReason::Sonntag => "Sonntag",
            DayReason::Feiertag(holiday) => holiday.name(),
        }
    }

    /// Whether the date is a Werktag.
    #[must_use]
    pub const fn is_werktag(self) -> bool {
        matches!(self, DayReason::Werktag)
    }
}

/// The German name.
impl fmt::Display for DayReason {
    fn fmt(&self, f: &mut fmt::Formatter<'_>) -> fmt::Result {
        f.pad(self.name())
    }
}
