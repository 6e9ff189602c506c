//! Calls of the C library that Rust's has no name for. The types and numbers are those of Linux, the BSDs and macOS.

pub(crate) const SIGKILL: i32 = 9;
pub(crate) const SIGPIPE: i32 = 13;
pub(crate) const SIG_IGN: usize = 1;

/// Linux's number of `close_range`, the same on all processors. By this flag it closes nothing before a program is started.
#[cfg(target_os = "linux")]
pub(crate) const SYS_CLOSE_RANGE: std::ffi::c_long = 436;
#[cfg(target_os = "linux")]
pub(crate) const CLOSE_RANGE_CLOEXEC: std::ffi::c_long = 4;

// SAFETY: the C library has these functions with these types. A status that nobody wants has no address.
unsafe extern "C" {
    pub(crate) safe fn _exit(status: i32) -> !;
    pub(crate) safe fn kill(process: i32, signal: i32) -> i32;
    pub(crate) safe fn waitpid(process: i32, status: Option<&mut i32>, options: i32) -> i32;
    pub(crate) fn signal(number: i32, handler: usize) -> usize;
    #[cfg(target_os = "linux")]
    pub(crate) fn syscall(number: std::ffi::c_long, ...) -> std::ffi::c_long;
}
