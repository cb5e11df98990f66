use std::str::FromStr;

/// A text that is read from its front.
pub(crate) struct Text<'a> {
    left: &'a [u8],
}

impl Text<'_> {
    /// What `read` takes from the text, if that is all of it.
    pub(crate) fn whole<T>(text: &str, read: impl FnOnce(&mut Text) -> Option<T>) -> Option<T> {
        let mut text = Text { left: text.as_bytes() };
        read(&mut text).filter(|_| text.left.is_empty())
    }

    /// A number of exactly so many digits.
    pub(crate) fn digits<T: TryFrom<u32>>(&mut self, count: usize) -> Option<T> {
        let (digits, left) = self.left.split_at_checked(count)?;
        self.left = left;
        T::try_from(number(std::str::from_utf8(digits).ok()?)?).ok()
    }

    /// One of these bytes.
    pub(crate) fn one_of(&mut self, allowed: &[u8]) -> Option<u8> {
        let (&first, left) = self.left.split_first()?;
        self.left = left;
        allowed.contains(&first).then_some(first)
    }

    pub(crate) fn starts_with(&self, byte: u8) -> bool {
        self.left.first() == Some(&byte)
    }

    /// The nanoseconds of a point and one to nine digits; 0 if there is no point.
    pub(crate) fn fraction(&mut self) -> Option<u32> {
        if !self.starts_with(b'.') {
            return Some(0);
        }
        self.one_of(b".")?;
        let count = self.left.iter().take_while(|byte| byte.is_ascii_digit()).count();
        let scale = u32::try_from(9_usize.checked_sub(count)?).ok()?;
        Some(self.digits::<u32>(count)? * 10_u32.pow(scale))
    }
}

/// A number of digits alone: no sign, and at least one digit.
pub(crate) fn number<T: FromStr>(text: &str) -> Option<T> {
    text.bytes().all(|byte| byte.is_ascii_digit()).then(|| text.parse().ok())?
}
