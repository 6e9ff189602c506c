//! The words that C's `main` is given. Without its own `main`, Rust's library has them on some systems alone.
use std::ffi::{CStr, OsStr, c_char};
use std::os::unix::ffi::OsStrExt;
use std::ptr;
use std::sync::atomic::{AtomicPtr, AtomicUsize, Ordering};

/// Where the words are.
static FIRST: AtomicPtr<*const c_char> = AtomicPtr::new(ptr::null_mut());

/// How many they are: none, until they are kept.
static COUNT: AtomicUsize = AtomicUsize::new(0);

/// Keeps the words for [`args`](super::args). It takes no memory.
///
/// # Safety
///
/// This is called once. There are `count` words from `first` on, each a string of C, and none changes from now on.
pub unsafe fn keep(count: i32, first: *const *const c_char) {
    FIRST.store(first.cast_mut(), Ordering::Relaxed);
    COUNT.store(usize::try_from(count).unwrap_or(0), Ordering::Release);
}

/// The words that are kept.
pub(super) fn words() -> impl Iterator<Item = &'static OsStr> {
    let count = COUNT.load(Ordering::Acquire);
    let first = FIRST.load(Ordering::Relaxed);
    (0..count).map(move |at| {
        // SAFETY: the caller of `keep` promised so many strings, which stay as they are.
        let word = unsafe { CStr::from_ptr(*first.add(at)) };
        OsStr::from_bytes(word.to_bytes())
    })
}

#[cfg(test)]
mod tests {
    use super::{keep, words};
    use crate::runtime::HostRuntime;
    use std::io::ErrorKind;

    #[test]
    fn the_words_are_those_that_are_kept() {
        assert_eq!(words().count(), 0);
        let strings = [c"name", c"", c"--book=\xff", c"not counted"].map(|it| it.as_ptr());
        // SAFETY: this is the one call, with three of the strings. They and the list are there until the process ends.
        unsafe { keep(3, Box::leak(Box::new(strings)).as_ptr()) };
        let bytes: Vec<_> = words().map(|word| word.as_encoded_bytes()).collect();
        assert_eq!(bytes, [&b"name"[..], b"", b"--book=\xff"]);
        let refused = crate::env::args(&HostRuntime::new()).map(|_| ());
        assert_eq!(refused.unwrap_err().kind(), ErrorKind::InvalidData);
    }
}
