//! The original, as the build script found it.

include!(concat!(env!("OUT_DIR"), "/lib.rs"));

/// What its holiday test goes by, which it keeps to itself.
pub mod holidays {
    use time::Date;

    include!(concat!(env!("OUT_DIR"), "/lists.rs"));

    #[must_use]
    pub fn is_holiday(date: Date) -> bool {
        crate::is_bdew_mako_holiday(date)
    }

    #[must_use]
    pub fn buss_und_bettag(year: i32) -> Date {
        crate::buss_und_bettag(year)
    }

    #[must_use]
    pub fn easter_sunday(year: i32) -> Date {
        crate::easter_sunday(year)
    }
}
