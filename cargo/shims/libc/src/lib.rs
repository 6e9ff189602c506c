//! The part of the kit's `libc` that the programs use. The numbers are those of Linux, the BSDs and macOS.
pub mod types {
    #[repr(C)]
    #[derive(Clone, Copy)]
    #[allow(non_camel_case_types)]
    pub struct pollfd {
        pub fd: i32,
        pub events: i16,
        pub revents: i16,
    }
}

pub mod net {
    use crate::types::pollfd;

    pub const POLLIN: i16 = 1;
    pub const POLLOUT: i16 = 4;

    #[cfg(all(unix, not(kit_portable)))]
    mod c {
        use crate::types::pollfd;

        /// How C counts what it polls.
        #[cfg(target_os = "linux")]
        pub(super) type Count = std::ffi::c_ulong;
        #[cfg(not(target_os = "linux"))]
        pub(super) type Count = std::ffi::c_uint;

        // SAFETY: the C library has this function with these types.
        unsafe extern "C" {
            pub(super) fn poll(asked: *mut pollfd, count: Count, timeout: i32) -> i32;
        }
    }

    /// Waits until a file is ready, for at most so many milliseconds. It returns how many are, or -1.
    #[cfg(all(unix, not(kit_portable)))]
    pub fn poll(asked: &mut [pollfd], timeout: i32) -> i32 {
        // SAFETY: the pointer is to so many of them, and nobody else has them meanwhile.
        unsafe { c::poll(asked.as_mut_ptr(), asked.len() as c::Count, timeout) }
    }

    /// There is no such call: each file counts as ready, so a call of it waits without a limit.
    #[cfg(any(not(unix), kit_portable))]
    pub fn poll(asked: &mut [pollfd], _timeout: i32) -> i32 {
        asked.len() as i32
    }
}
