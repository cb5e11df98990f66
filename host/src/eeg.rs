/// Whether a Marktlokation or Tranche is one of the EEG. A call takes it as a code, which counts
/// from 0 in this order.
#[derive(Clone, Copy, Debug, PartialEq, Eq, Hash)]
#[repr(u8)]
pub enum Eeg {
    /// It is none.
    No,
    /// It is one.
    Yes,
    /// It is not known.
    Unknown,
}

impl Eeg {
    /// In the order of their codes, from 0.
    pub const ALL: [Eeg; 3] = [Eeg::No, Eeg::Yes, Eeg::Unknown];

    /// The number by which a call knows the case: `Unknown` is 2.
    #[must_use]
    pub const fn code(self) -> u8 {
        self as u8
    }

    /// The case of a code; none for one that the calls refuse.
    ///
    /// ```
    /// use mako_fristen_host::Eeg;
    ///
    /// assert_eq!(Eeg::of_code(2), Some(Eeg::Unknown));
    /// assert_eq!(Eeg::of_code(3), None);
    /// ```
    #[must_use]
    pub fn of_code(code: u8) -> Option<Eeg> {
        Eeg::ALL.into_iter().find(|eeg| eeg.code() == code)
    }
}
