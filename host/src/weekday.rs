use std::fmt;

/// A day of the week, Monday first; [`Date::weekday`](crate::Date::weekday) gives a date's.
#[derive(Clone, Copy, Debug, PartialEq, Eq, PartialOrd, Ord, Hash)]
#[repr(u8)]
pub enum Weekday {
    /// Monday.
    Montag,
    /// Tuesday.
    Dienstag,
    /// Wednesday.
    Mittwoch,
    /// Thursday.
    Donnerstag,
    /// Friday.
    Freitag,
    /// Saturday.
    Samstag,
    /// Sunday.
    Sonntag,
}

impl Weekday {
    /// In their order.
    pub const ALL: [Weekday; 7] = [
        Weekday::Montag,
        Weekday::Dienstag,
        Weekday::Mittwoch,
        Weekday::Donnerstag,
        Weekday::Freitag,
        Weekday::Samstag,
        Weekday::Sonntag,
    ];

    /// The number of ISO 8601: 1 is Monday, 7 Sunday.
    ///
    /// ```
    /// use mako_fristen_host::Weekday;
    ///
    /// assert_eq!(Weekday::Sonntag.number(), 7);
    /// ```
    #[must_use]
    pub const fn number(self) -> u8 {
        self as u8 + 1
    }
}

/// The German name.
impl fmt::Display for Weekday {
    fn fmt(&self, f: &mut fmt::Formatter<'_>) -> fmt::Result {
        f.pad(match self {
            Weekday::Montag => "Montag",
            Weekday::Dienstag => "Dienstag",
            Weekday::Mittwoch => "Mittwoch",
            Weekday::Donnerstag => "Donnerstag",
            Weekday::Freitag => "Freitag",
            Weekday::Samstag => "Samstag",
            Weekday::Sonntag => "Sonntag",
        })
    }
}
