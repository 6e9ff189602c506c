//! The processes that were started and not yet waited for, in a table that takes no memory.
//!
//! They are ended where a program has to end without a return to the code that has them.
use std::sync::atomic::{AtomicU32, Ordering};

/// How many are noted. A program has two at a time.
const ROOM: usize = 8;

/// No process.
const NONE: u32 = 0;

static RUNNING: [AtomicU32; ROOM] = [const { AtomicU32::new(NONE) }; ROOM];

/// Where a process is noted.
pub(crate) struct Place(&'static AtomicU32);

impl Place {
    /// Forgets the process, which was waited for: its number may be another's from now on.
    pub(crate) fn clear(self) {
        self.0.store(NONE, Ordering::Relaxed);
    }
}

/// Notes a process, if there is room for one more.
pub(crate) fn note(process: u32) -> Option<Place> {
    let free = RUNNING.iter().find(|place| takes(place, process))?;
    Some(Place(free))
}

/// Whether a place was free, and has the process now.
fn takes(place: &AtomicU32, process: u32) -> bool {
    place.compare_exchange(NONE, process, Ordering::Relaxed, Ordering::Relaxed).is_ok()
}

/// Kills the processes that are noted, and waits for them.
#[cfg(all(unix, not(kit_portable)))]
pub(crate) fn end_all() {
    use crate::c;

    let noted = || {
        let processes = RUNNING.iter().map(|place| place.load(Ordering::Relaxed));
        processes.filter(|process| *process != NONE).map(u32::cast_signed)
    };
    for process in noted() {
        c::kill(process, c::SIGKILL);
    }
    for process in noted() {
        while c::waitpid(process, None, 0) < 0 && is_interrupted() {}
    }
}

/// Whether the last call of the system was interrupted.
#[cfg(all(unix, not(kit_portable)))]
fn is_interrupted() -> bool {
    std::io::Error::last_os_error().kind() == std::io::ErrorKind::Interrupted
}

/// There is no call for that: they read the end of their input.
#[cfg(any(not(unix), kit_portable))]
pub(crate) fn end_all() {}
