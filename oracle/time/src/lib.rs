//! Debian's `time`, under its own name, with `util::days_in_month`, which it had not yet.

pub use debian_time::*;

pub mod util {
    pub use debian_time::util::*;

    /// The name and the order of parameters of the newer `time`.
    #[must_use]
    pub const fn days_in_month(month: debian_time::Month, year: i32) -> u8 {
        debian_time::util::days_in_year_month(year, month)
    }
}
