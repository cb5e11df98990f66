use std::fmt;

/// A Transaktionsgrund in a [`Question`](crate::Question), which has room for 14 bytes of any kind.
/// The calls themselves take a slice of any length.
#[derive(Clone, Copy, Debug, Default, PartialEq, Eq, Hash)]
pub struct Reason {
    len: u8,
    bytes: [u8; Reason::LONGEST],
}

impl Reason {
    /// How many bytes there is room for.
    pub const LONGEST: usize = 14;

    /// The reason of these bytes; none if there is no room for so many.
    ///
    /// ```
    /// use mako_fristen_host::Reason;
    ///
    /// assert_eq!(Reason::new(b"ZQ7").map(|reason| reason.to_string()), Some("\"ZQ7\"".into()));
    /// assert_eq!(Reason::new(&[0; Reason::LONGEST + 1]), None);
    /// ```
    #[must_use]
    pub fn new(reason: &[u8]) -> Option<Reason> {
        let mut bytes = [0; Reason::LONGEST];
        bytes.get_mut(..reason.len())?.copy_from_slice(reason);
        Some(Reason { len: reason.len() as u8, bytes })
    }

    /// The bytes, as they were given.
    #[must_use]
    pub fn as_bytes(&self) -> &[u8] {
        &self.bytes[..usize::from(self.len)]
    }
}

/// In quotes, with what is no printable ASCII escaped.
impl fmt::Display for Reason {
    fn fmt(&self, f: &mut fmt::Formatter<'_>) -> fmt::Result {
        write!(f, "\"{}\"", self.as_bytes().escape_ascii())
    }
}
