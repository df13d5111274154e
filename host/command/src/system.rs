//! What the system offers and the standard library does not: mapped files, blocks for a file, local
//! time and the monotonic clock. The functions of the C library are declared by hand, as on Linux on
//! x86-64; this file and `signals.rs` have all of the program's `unsafe`.
#![allow(unsafe_code)]

use raw::{Local, Timespec};
use std::ffi::c_void;
use std::fs::File;
use std::io::{Error, Result};
use std::os::fd::AsRawFd;
use std::ptr::{null, null_mut};

mod raw {
    use std::ffi::{c_char, c_int, c_long, c_void};

    /// `struct tm`. Months count from 0 and years from 1900; `east` are the seconds that local time
    /// is ahead of UTC.
    #[repr(C)]
    pub struct Local {
        pub second: c_int,
        pub minute: c_int,
        pub hour: c_int,
        pub day: c_int,
        pub month: c_int,
        pub year: c_int,
        pub weekday: c_int,
        pub day_of_year: c_int,
        pub summer: c_int,
        pub east: c_long,
        pub zone: *const c_char,
    }

    /// `struct timespec`.
    #[repr(C)]
    pub struct Timespec {
        pub seconds: i64,
        pub nanoseconds: c_long,
    }

    extern "C" {
        pub fn mmap(
            at: *mut c_void,
            len: usize,
            protection: c_int,
            flags: c_int,
            file: c_int,
            offset: i64,
        ) -> *mut c_void;
        pub fn munmap(at: *mut c_void, len: usize) -> c_int;
        pub fn msync(at: *mut c_void, len: usize, flags: c_int) -> c_int;
        pub fn posix_fallocate(file: c_int, offset: i64, len: i64) -> c_int;
        pub fn localtime_r(seconds: *const i64, into: *mut Local) -> *mut Local;
        pub fn clock_gettime(clock: c_int, into: *mut Timespec) -> c_int;
    }

    pub const PROT_READ_WRITE: c_int = 1 | 2;
    pub const MAP_SHARED: c_int = 1;
    pub const MS_SYNC: c_int = 4;
    pub const CLOCK_MONOTONIC: c_int = 1;
}

/// Local time at some seconds since 1970; none where its year does not fit 32 bits.
pub fn local(seconds: i64) -> Option<Local> {
    let mut local = Local {
        second: 0,
        minute: 0,
        hour: 0,
        day: 0,
        month: 0,
        year: 0,
        weekday: 0,
        day_of_year: 0,
        summer: 0,
        east: 0,
        zone: null(),
    };
    // SAFETY: both pointers are of values that live through the call; it writes the second alone.
    // This program does not change its environment, which names the zone.
    let answer = unsafe { raw::localtime_r(&seconds, &mut local) };
    (!answer.is_null()).then_some(local)
}

/// The microseconds of the monotonic clock.
pub fn monotonic() -> Result<u64> {
    let mut time = Timespec {
        seconds: 0,
        nanoseconds: 0,
    };
    // SAFETY: the pointer is of a value that lives through the call, and the call writes it alone.
    match unsafe { raw::clock_gettime(raw::CLOCK_MONOTONIC, &mut time) } {
        0 => Ok(time.seconds as u64 * 1_000_000 + time.nanoseconds as u64 / 1_000),
        _ => Err(Error::last_os_error()),
    }
}

/// Gives a file blocks for so many bytes, which it has from then on, so that no later write to them
/// can meet a full disk. Its bytes stay as they are; a shorter file gets zeros.
pub fn allocate(file: &File, len: usize) -> Result<()> {
    // SAFETY: the call takes numbers alone; the file is open.
    match unsafe { raw::posix_fallocate(file.as_raw_fd(), 0, len as i64) } {
        0 => Ok(()),
        number => Err(Error::from_raw_os_error(number)),
    }
}

/// A file's bytes in memory: a store to them is a store to the file.
pub struct Mapped {
    at: *mut c_void,
    len: usize,
}

impl Mapped {
    /// Maps the first bytes of a file that has so many, at least one, and is open to be read and
    /// written. Its lock has to be held for as long as it is mapped: whoever goes by the lock
    /// neither writes nor shortens the file then.
    pub fn new(file: &File, len: usize) -> Result<Mapped> {
        // SAFETY: the system chooses a place that is in no use; the length is not 0.
        let at = unsafe {
            raw::mmap(
                null_mut(),
                len,
                raw::PROT_READ_WRITE,
                raw::MAP_SHARED,
                file.as_raw_fd(),
                0,
            )
        };
        match at as isize {
            -1 => Err(Error::last_os_error()),
            _ => Ok(Mapped { at, len }),
        }
    }

    pub fn bytes(&mut self) -> &mut [u8] {
        // SAFETY: so many bytes are mapped from there on, to be read and written, until this is
        // dropped; they are borrowed through it alone.
        unsafe { std::slice::from_raw_parts_mut(self.at.cast(), self.len) }
    }

    /// Ends when all stores so far are on the disk.
    pub fn sync(&mut self) -> Result<()> {
        // SAFETY: the call writes nothing to these bytes, which are mapped.
        match unsafe { raw::msync(self.at, self.len, raw::MS_SYNC) } {
            0 => Ok(()),
            _ => Err(Error::last_os_error()),
        }
    }
}

impl Drop for Mapped {
    fn drop(&mut self) {
        // SAFETY: so many bytes are mapped from there on, and nobody has a reference to them now.
        unsafe { raw::munmap(self.at, self.len) };
    }
}

/// Whether standard output was closed when the program was started.
pub fn output_was_closed() -> bool {
    closed::OUTPUT.load(std::sync::atomic::Ordering::Relaxed)
}

/// The standard library opens /dev/null in the place of a closed standard output before `main`. The
/// C library runs what stands in `.init_array` earlier.
mod closed {
    use std::ffi::c_int;
    use std::sync::atomic::{AtomicBool, Ordering};

    pub static OUTPUT: AtomicBool = AtomicBool::new(false);

    #[used]
    #[link_section = ".init_array"]
    static LOOK: extern "C" fn() = look;

    extern "C" fn look() {
        // SAFETY: the call takes numbers alone, and changes nothing.
        let answer = unsafe { fcntl(STANDARD_OUTPUT, F_GETFD) };
        OUTPUT.store(answer == -1, Ordering::Relaxed);
    }

    const STANDARD_OUTPUT: c_int = 1;
    const F_GETFD: c_int = 1;

    extern "C" {
        fn fcntl(file: c_int, command: c_int, ...) -> c_int;
    }
}
