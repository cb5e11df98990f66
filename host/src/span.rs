use crate::Date;

/// The anchors that a transmission day allows.
#[derive(Clone, Copy, Debug, PartialEq, Eq, Hash)]
pub enum Span {
    /// This day and every later one.
    From(Date),
    /// The first day to the last.
    Between(Date, Date),
    /// No day at all.
    Empty,
}

impl Span {
    /// Whether `anchor` lies in the span. A date that is none of the calendar is not told apart
    /// here: the order of the three numbers decides.
    ///
    /// ```
    /// use mako_fristen_host::{Date, Span};
    ///
    /// let span = Span::From(Date::new(2026, 1, 13));
    /// assert!(span.contains(Date::new(2026, 1, 13)));
    /// assert!(!span.contains(Date::new(2026, 1, 12)));
    /// ```
    #[must_use]
    pub fn contains(self, anchor: Date) -> bool {
        match self {
            Span::From(first) => first <= anchor,
            Span::Between(first, last) => (first..=last).contains(&anchor),
            Span::Empty => false,
        }
    }
}
