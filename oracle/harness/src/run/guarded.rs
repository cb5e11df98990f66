//! A slice to lend among guard entries.

/// At least 16 bytes on either side, whatever an entry is.
const GUARD: usize = 16;

pub struct Guarded<T> {
    whole: Vec<T>,
    guard: T,
}

impl<T: Copy + PartialEq> Guarded<T> {
    pub fn new(content: &[T], guard: T) -> Guarded<T> {
        Guarded { whole: [&[guard; GUARD], content, &[guard; GUARD]].concat(), guard }
    }

    pub fn slice(&self) -> &[T] {
        &self.whole[GUARD..self.whole.len() - GUARD]
    }

    pub fn slice_mut(&mut self) -> &mut [T] {
        let end = self.whole.len() - GUARD;
        &mut self.whole[GUARD..end]
    }

    /// Whether all guard entries are as they were.
    pub fn is_intact(&self) -> bool {
        let sides = [&self.whole[..GUARD], &self.whole[self.whole.len() - GUARD..]];
        sides.into_iter().flatten().all(|&entry| entry == self.guard)
    }
}
