/// What a count gives ([`werktage_between`](crate::werktage_between)): the Werktage, and how many
/// days were tested for them. Whole years come from a table, so that these are few, however far
/// apart the two dates lie.
///
/// ```
/// use mako_fristen_host::{werktage_between, Date, WerktageBetween};
///
/// // 2 April is the 92nd day of 2026, 7 April the 97th.
/// let between = werktage_between(Date::new(2026, 4, 2), Date::new(2026, 4, 7));
/// assert_eq!(between, Ok(WerktageBetween { werktage: 1, days_tested: 92 + 97 }));
/// ```
#[derive(Clone, Copy, Debug, PartialEq, Eq, Hash)]
pub struct WerktageBetween {
    /// The Werktage after the first date up to and including the second; 0 if that is not later.
    pub werktage: u32,
    /// For each of the two dates, the days from 1 January up to and including it; 0 if the second
    /// is not later.
    pub days_tested: u32,
}

impl WerktageBetween {
    /// The most days that a count tests: from 31 December of a leap year to that of another.
    ///
    /// ```
    /// use mako_fristen_host::{werktage_between, Date, WerktageBetween};
    ///
    /// let most = werktage_between(Date::new(2024, 12, 31), Date::new(2028, 12, 31))?;
    /// assert_eq!(most.days_tested, WerktageBetween::MOST_DAYS_TESTED);
    /// # Ok::<(), mako_fristen_host::Error>(())
    /// ```
    pub const MOST_DAYS_TESTED: u32 = 732;

    /// The fewest of two dates of which the second is later: from a 1 January to another.
    pub(crate) const FEWEST_DAYS_TESTED: u32 = 2;
}
