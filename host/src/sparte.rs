use std::fmt;

/// Decides where a day begins. A call takes it as a code, which counts from 0 in this order.
#[derive(Clone, Copy, Debug, PartialEq, Eq, Hash)]
#[repr(u8)]
pub enum Sparte {
    /// At 00:00 in Berlin.
    Strom,
    /// At 06:00 in Berlin.
    Gas,
}

impl Sparte {
    /// In the order of their codes, from 0.
    pub const ALL: [Sparte; 2] = [Sparte::Strom, Sparte::Gas];

    /// The number by which a call knows the case: `Gas` is 1.
    #[must_use]
    pub const fn code(self) -> u8 {
        self as u8
    }

    /// The case of a code; none for one that the calls refuse.
    ///
    /// ```
    /// use mako_fristen_host::Sparte;
    ///
    /// assert_eq!(Sparte::of_code(1), Some(Sparte::Gas));
    /// assert_eq!(Sparte::of_code(2), None);
    /// ```
    #[must_use]
    pub fn of_code(code: u8) -> Option<Sparte> {
        Sparte::ALL.into_iter().find(|sparte| sparte.code() == code)
    }
}

/// The German name.
impl fmt::Display for Sparte {
    fn fmt(&self, f: &mut fmt::Formatter<'_>) -> fmt::Result {
        f.pad(match self {
            Sparte::Strom => "Strom",
            Sparte::Gas => "Gas",
        })
    }
}
