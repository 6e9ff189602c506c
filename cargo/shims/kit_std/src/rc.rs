//! Shared values.
use crate::alloc::{AllocError, AllocFailed, Global};
use std::ops::Deref;

/// Rust's shared value, which only tests have. Rust has no call that returns the refusal, so none is returned: the
/// test aborts.
pub struct Rc<T>(std::rc::Rc<T>);

impl<T> Rc<T> {
    pub fn new(_alloc: Global, value: T) -> Result<Self, AllocFailed<T>> {
        Ok(Rc(std::rc::Rc::new(value)))
    }

    #[allow(clippy::should_implement_trait)]
    pub fn clone(&self) -> Result<Self, AllocError> {
        Ok(Rc(std::rc::Rc::clone(&self.0)))
    }
}

impl<T> Deref for Rc<T> {
    type Target = T;

    fn deref(&self) -> &T {
        &self.0
    }
}
