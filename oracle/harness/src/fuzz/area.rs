//! Slices to lend, with guard bytes around.

use super::system::{between_closed_pages, mark, Mark};
use std::ops::Range;

/// At least so many guard entries before and after a slice among others. In bytes it is also what
/// [`Place::Among`] goes by.
const GUARD: usize = 64;

/// Where a slice lies.
#[derive(Clone, Copy, Debug, PartialEq, Eq, Hash)]
pub enum Place {
    /// Among guard entries, so many bytes after a multiple of 64, as far as whole entries go.
    Among(usize),
    /// Directly after a page that may not be touched.
    AfterPage,
    /// Directly before one.
    BeforePage,
    /// Alone on the heap; nowhere if it is empty.
    Heap,
}

/// Memory from which one slice at a time is lent.
pub struct Area<T: 'static> {
    among: Vec<T>,
    pages: &'static mut [T],
    heap: Box<[T]>,
}

impl<T: Copy + Default + PartialEq> Area<T> {
    /// For slices of up to so many entries.
    pub fn new(longest: usize) -> Area<T> {
        let among = vec![T::default(); longest + 4 * GUARD];
        Area { among, pages: between_closed_pages(longest + GUARD), heap: Box::default() }
    }

    /// A slice with the content, and guard entries of this value wherever there is room beside it.
    pub fn lend(&mut self, place: Place, content: &[T], guard: T) -> Lent<'_, T> {
        let len = content.len();
        let (whole, from) = match place {
            Place::Among(by) => {
                let start = self.among.as_ptr().align_offset(GUARD);
                let from = GUARD + by % GUARD / size_of::<T>();
                (&mut self.among[start..start + from + len + GUARD], from)
            }
            Place::AfterPage => (&mut self.pages[..len + GUARD], 0),
            Place::BeforePage => {
                let start = self.pages.len() - len - GUARD;
                (&mut self.pages[start..], GUARD)
            }
            Place::Heap => {
                self.heap = vec![T::default(); len].into_boxed_slice();
                (&mut self.heap[..], 0)
            }
        };
        whole.fill(guard);
        let range = from..from + len;
        whole[range.clone()].copy_from_slice(content);
        Lent { whole, range, guard }
    }
}

/// A slice and what is around it.
pub struct Lent<'a, T> {
    whole: &'a mut [T],
    range: Range<usize>,
    guard: T,
}

impl<T: Copy + PartialEq> Lent<'_, T> {
    pub fn slice(&mut self) -> &mut [T] {
        &mut self.whole[self.range.clone()]
    }

    pub fn mark(&mut self, view: Mark) {
        mark(self.slice(), view);
    }

    /// Whether the slice and all guard entries are as they were.
    #[must_use]
    pub fn is_unchanged(&self, content: &[T]) -> bool {
        self.is_intact() && self.whole[self.range.clone()] == *content
    }

    /// Whether all guard entries are as they were.
    #[must_use]
    pub fn is_intact(&self) -> bool {
        let sides = [&self.whole[..self.range.start], &self.whole[self.range.end..]];
        sides.into_iter().flatten().all(|&entry| entry == self.guard)
    }
}
