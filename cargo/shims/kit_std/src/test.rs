//! How a test ends.
use crate::alloc::AllocError;
use crate::runtime::HostRuntime;
use std::fmt::Debug;

/// What a test fails by: any error. (So it has no `Debug` of its own.)
pub struct Fail(std::string::String);

impl<E: Debug> From<E> for Fail {
    fn from(error: E) -> Self {
        Fail(format!("{error:?}"))
    }
}

/// What a test returns.
pub trait Outcome {
    fn failed(self) -> Option<Fail>;
}

impl Outcome for () {
    fn failed(self) -> Option<Fail> {
        None
    }
}

impl Outcome for Result<(), Fail> {
    fn failed(self) -> Option<Fail> {
        self.err()
    }
}

impl Outcome for Result<(), AllocError> {
    fn failed(self) -> Option<Fail> {
        self.err().map(Fail::from)
    }
}

/// Panics where the test failed.
pub fn passes<T: Outcome>(test: impl FnOnce(HostRuntime) -> T) {
    if let Some(Fail(why)) = test(HostRuntime::new()).failed() {
        panic!("{why}");
    }
}
