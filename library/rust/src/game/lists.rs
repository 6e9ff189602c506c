//! Lists that calls of a game return: each is built in place, in the iterator over it.

use std::ops::Range;

use arrayvec::ArrayVec;
use go_board::MOST_POINTS;

/// The items of a list, in order, each as `of` returns it.
pub(super) struct Listed<T, F> {
    list: ArrayVec<T, MOST_POINTS>,
    left: Range<usize>,
    of: F,
}

/// The list that `fill` makes, each item as `of` returns it.
#[inline]
pub(super) fn listed<T: Copy, U, F: Fn(T) -> U>(
    of: F,
    fill: impl FnOnce(&mut ArrayVec<T, MOST_POINTS>),
) -> Listed<T, F> {
    let mut listed = Listed { list: ArrayVec::new(), left: 0..0, of };
    fill(&mut listed.list);
    listed.left.end = listed.list.len();
    listed
}

impl<T: Copy, U, F: Fn(T) -> U> Iterator for Listed<T, F> {
    type Item = U;

    #[inline]
    fn next(&mut self) -> Option<U> {
        self.left.next().map(|at| (self.of)(self.list[at]))
    }

    #[inline]
    fn size_hint(&self) -> (usize, Option<usize>) {
        self.left.size_hint()
    }

    #[inline]
    fn nth(&mut self, count: usize) -> Option<U> {
        self.left.nth(count).map(|at| (self.of)(self.list[at]))
    }
}

impl<T: Copy, U, F: Fn(T) -> U> DoubleEndedIterator for Listed<T, F> {
    #[inline]
    fn next_back(&mut self) -> Option<U> {
        self.left.next_back().map(|at| (self.of)(self.list[at]))
    }
}

impl<T: Copy, U, F: Fn(T) -> U> ExactSizeIterator for Listed<T, F> {}
