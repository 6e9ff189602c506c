//! Vectors whose calls that take memory return a refusal.
use crate::alloc::{AllocError, AllocFailed, Global};
use crate::memory::asked;
use std::fmt::{self, Debug};
use std::io;
use std::marker::PhantomData;
use std::ops::{Deref, DerefMut};

/// Rust's vector. Where memory is refused, it stays as it was.
#[derive(PartialEq, Eq)]
pub struct Vec<T, A = Global> {
    items: std::vec::Vec<T>,
    alloc: PhantomData<A>,
}

impl<T, A> Vec<T, A> {
    pub fn new(_alloc: A) -> Self {
        Vec::of(std::vec::Vec::new())
    }

    fn of(items: std::vec::Vec<T>) -> Self {
        Vec { items, alloc: PhantomData }
    }

    fn with_room(count: usize) -> Result<Self, AllocError> {
        let mut items = std::vec::Vec::new();
        asked(|| items.try_reserve_exact(count))?;
        Ok(Vec::of(items))
    }

    pub fn from_array<const N: usize>(_alloc: A, items: [T; N]) -> Result<Self, AllocError> {
        let mut made = Vec::with_room(N)?;
        made.items.extend(items);
        Ok(made)
    }

    /// Makes room for so many items more.
    pub fn reserve(&mut self, more: usize) -> Result<(), AllocError> {
        if self.items.capacity() - self.items.len() >= more {
            return Ok(());
        }
        asked(|| self.items.try_reserve(more))
    }

    pub fn push(&mut self, item: T) -> Result<(), AllocFailed<T>> {
        if self.reserve(1).is_err() {
            return Err(AllocFailed { value: item });
        }
        self.items.push(item);
        Ok(())
    }

    pub fn pop(&mut self) -> Option<T> {
        self.items.pop()
    }

    pub fn clear(&mut self) {
        self.items.clear();
    }

    pub fn truncate(&mut self, count: usize) {
        self.items.truncate(count);
    }

    pub fn as_slice(&self) -> &[T] {
        &self.items
    }

    pub fn as_mut_slice(&mut self) -> &mut [T] {
        &mut self.items
    }
}

/// The items are cloned as Rust clones them. In the kit that may be refused too.
impl<T: Clone, A> Vec<T, A> {
    pub fn extend_from_slice(&mut self, items: &[T]) -> Result<(), AllocError> {
        self.reserve(items.len())?;
        self.items.extend_from_slice(items);
        Ok(())
    }

    pub fn resize(&mut self, count: usize, item: T) -> Result<(), AllocError> {
        self.reserve(count.saturating_sub(self.items.len()))?;
        self.items.resize(count, item);
        Ok(())
    }

    #[allow(clippy::should_implement_trait)]
    pub fn clone(&self) -> Result<Self, AllocError> {
        let mut made = Vec::with_room(self.items.len())?;
        made.items.extend_from_slice(&self.items);
        Ok(made)
    }
}

impl<T, A> Deref for Vec<T, A> {
    type Target = [T];

    fn deref(&self) -> &[T] {
        &self.items
    }
}

impl<T, A> DerefMut for Vec<T, A> {
    fn deref_mut(&mut self) -> &mut [T] {
        &mut self.items
    }
}

impl<T: Debug, A> Debug for Vec<T, A> {
    fn fmt(&self, f: &mut fmt::Formatter<'_>) -> fmt::Result {
        self.items.fmt(f)
    }
}

impl<T, A> IntoIterator for Vec<T, A> {
    type Item = T;
    type IntoIter = std::vec::IntoIter<T>;

    fn into_iter(self) -> Self::IntoIter {
        self.items.into_iter()
    }
}

impl<'a, T, A> IntoIterator for &'a Vec<T, A> {
    type Item = &'a T;
    type IntoIter = std::slice::Iter<'a, T>;

    fn into_iter(self) -> Self::IntoIter {
        self.items.iter()
    }
}

impl<A> io::Write for Vec<u8, A> {
    fn write(&mut self, text: &[u8]) -> io::Result<usize> {
        self.extend_from_slice(text)?;
        Ok(text.len())
    }

    fn flush(&mut self) -> io::Result<()> {
        Ok(())
    }
}

/// `collect(alloc)`
pub trait CollectIn: Iterator + Sized {
    fn collect_in<A>(self, alloc: A) -> Result<Vec<Self::Item, A>, AllocError> {
        let mut items = Vec::new(alloc);
        for item in self {
            items.push(item)?;
        }
        Ok(items)
    }
}

impl<I: Iterator> CollectIn for I {}

#[cfg(test)]
mod tests {
    use super::Vec;
    use crate::alloc::{AllocError, Global};

    /// No system has so many bytes.
    const TOO_MANY: usize = isize::MAX as usize;

    #[test]
    fn a_refusal_is_returned_and_leaves_the_items() {
        let mut bytes = Vec::from_array(Global, *b"ab").unwrap();
        assert_eq!(bytes.resize(TOO_MANY, 0), Err(AllocError));
        assert_eq!(bytes.resize(usize::MAX, 0), Err(AllocError));
        assert_eq!(bytes.as_slice(), b"ab");
        assert!(Vec::<u8>::with_room(TOO_MANY).is_err());
    }

    #[test]
    fn items_are_cloned_and_cut() {
        let mut bytes = Vec::from_array(Global, *b"ab").unwrap();
        bytes.extend_from_slice(b"cd").unwrap();
        assert_eq!(bytes.clone().unwrap().as_slice(), b"abcd");
        bytes.resize(1, b'x').unwrap();
        bytes.resize(3, b'y').unwrap();
        assert_eq!(bytes.as_slice(), b"ayy");
    }
}
