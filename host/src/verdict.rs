use crate::Date;
#[cfg(doc)]
use crate::VorlaufShape;

/// What a Vorlauffrist says of a transmission day and an anchor.
#[derive(Clone, Copy, Debug, PartialEq, Eq, Hash)]
#[must_use]
pub enum VorlaufVerdict {
    /// Sent in time.
    Ok,
    /// Sent too late for this anchor.
    TooLate {
        /// How many Werktage are missing: those after the last permitted transmission day up to
        /// and including the transmission day; for
        /// [`EarliestWerktageAfter`](VorlaufShape::EarliestWerktageAfter) those after the anchor up
        /// to and including the named date. It is 0 if no Werktag lies there.
        shortfall_wt: u32,
        /// The original's date, which is not always an anchor that would be accepted:
        /// [`VorlaufShape::span`] has those.
        earliest_possible: Date,
    },
    /// Sent before the window opens.
    TooEarly {
        /// How many Werktage before.
        excess_wt: u32,
    },
}

/// A verdict with its margin.
///
/// ```
/// use mako_fristen_host::{Date, VorlaufShape, VorlaufVerdict};
///
/// let monday = Date::new(2026, 1, 12);
/// let check = |day| VorlaufShape::LatestWerktageBefore(1).check(Date::new(2026, 1, day), monday);
/// assert_eq!(check(7)?.margin, 2); // the Friday after it is the last permitted day
/// assert_eq!(check(9)?.margin, 0);
/// let saturday = check(10)?;
/// assert!(matches!(saturday.verdict, VorlaufVerdict::TooLate { shortfall_wt: 0, .. }));
/// assert_eq!(saturday.margin, -1);
/// # Ok::<(), mako_fristen_host::Error>(())
/// ```
#[derive(Clone, Copy, Debug, PartialEq, Eq, Hash)]
#[must_use]
pub struct Judgement {
    /// Sent in time, too late or too early.
    pub verdict: VorlaufVerdict,
    /// In calendar days, the last permitted transmission day less the transmission day; for
    /// [`EarliestWerktageAfter`](VorlaufShape::EarliestWerktageAfter) the anchor less the first that
    /// is accepted. It is negative exactly if the verdict is TooLate, but for a
    /// [window](VorlaufShape::WindowWerktageBefore) that closes before it opens, `earliest` below
    /// `latest`, where TooEarly may have any sign.
    pub margin: i32,
}

impl Judgement {
    /// The largest margin, with either sign: from the first day of the calendar to the last.
    ///
    /// ```
    /// use mako_fristen_host::{Date, Judgement, VorlaufShape};
    ///
    /// let most = VorlaufShape::LatestWerktageBefore(0).check(Date::FIRST, Date::LAST)?;
    /// assert_eq!(most.margin.unsigned_abs(), Judgement::LARGEST_MARGIN);
    /// # Ok::<(), mako_fristen_host::Error>(())
    /// ```
    pub const LARGEST_MARGIN: u32 = Date::LAST_DAY - Date::FIRST_DAY;
}
