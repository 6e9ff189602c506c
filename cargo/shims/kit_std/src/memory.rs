//! Memory that is refused.
//!
//! The kit's calls return a refusal. Those of this crate do so too: they ask for memory in [`asked`]. What Rust's
//! library or `clap` ask for themselves can't be returned: Rust aborts. So [`main!`](crate::main) gives a program an
//! allocator, [`Reporting`], by which such a refusal ends it as the kit's programs end: with the line
//! `NAME: out of memory` and the status 3. A library has no such allocator.
use crate::alloc::AllocError;
use crate::io::{Stderr, Write};
use crate::process::running;
use std::alloc::{GlobalAlloc, Layout, System};
use std::sync::atomic::{AtomicUsize, Ordering};

/// How many calls are under way that return a refusal. A program has one thread. Were there another, then what that
/// asks for meanwhile would be refused as Rust's library has it, by an abort.
static RETURNING: AtomicUsize = AtomicUsize::new(0);

/// What a program ends with where memory is refused.
const STATUS: i32 = 3;

/// Asks for memory by a call that returns a refusal.
pub(crate) fn asked<T, E>(ask: impl FnOnce() -> Result<T, E>) -> Result<T, AllocError> {
    RETURNING.fetch_add(1, Ordering::Relaxed);
    let answer = ask();
    RETURNING.fetch_sub(1, Ordering::Relaxed);
    answer.map_err(|_| AllocError)
}

/// The system's allocator, which ends the program where it has no memory, unless a call returns that.
pub struct Reporting {
    line: &'static str,
}

impl Reporting {
    /// It reports a refusal by this line.
    pub const fn new(line: &'static str) -> Self {
        Reporting { line }
    }

    /// The block, unless there is none and no call returns that.
    #[inline]
    fn answer(&self, block: *mut u8) -> *mut u8 {
        if block.is_null() && RETURNING.load(Ordering::Relaxed) == 0 {
            self.end();
        }
        block
    }

    /// Ends the processes that the program has started, reports the refusal, and ends the program. It takes no memory.
    #[cold]
    fn end(&self) -> ! {
        // Were memory asked for here all the same, it would be refused without another end.
        RETURNING.fetch_add(1, Ordering::Relaxed);
        running::end_all();
        let _ = Stderr.write_all(self.line.as_bytes());
        exit()
    }
}

/// Ends the program at once: nothing is dropped, and nothing waits to be written.
#[cfg(all(unix, not(kit_portable)))]
fn exit() -> ! {
    crate::c::_exit(STATUS)
}

/// Ends the program, after what waits to be written.
#[cfg(any(not(unix), kit_portable))]
fn exit() -> ! {
    std::process::exit(STATUS)
}

// SAFETY: each call is that of the system's allocator. Where that has no block, null is returned, or nothing is.
unsafe impl GlobalAlloc for Reporting {
    #[inline]
    unsafe fn alloc(&self, layout: Layout) -> *mut u8 {
        // SAFETY: the caller promises of the layout what the system's allocator needs.
        self.answer(unsafe { System.alloc(layout) })
    }

    #[inline]
    unsafe fn alloc_zeroed(&self, layout: Layout) -> *mut u8 {
        // SAFETY: as in `alloc`.
        self.answer(unsafe { System.alloc_zeroed(layout) })
    }

    #[inline]
    unsafe fn realloc(&self, block: *mut u8, layout: Layout, size: usize) -> *mut u8 {
        // SAFETY: the block is one of the system's allocator, and as in `alloc`.
        self.answer(unsafe { System.realloc(block, layout, size) })
    }

    #[inline]
    unsafe fn dealloc(&self, block: *mut u8, layout: Layout) {
        // SAFETY: the block is one of the system's allocator, with this layout.
        unsafe { System.dealloc(block, layout) }
    }
}
