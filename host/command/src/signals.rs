//! Signals: which of them end this program, and when. The functions of the C library are declared
//! by hand, as on Linux on x86-64; this file and `system.rs` have all of the program's `unsafe`.
#![allow(unsafe_code)]

use crate::fault::Fault;
use std::ffi::c_int;
use std::ptr::null_mut;
use std::sync::OnceLock;

mod raw {
    use std::ffi::{c_int, c_void};

    /// `sigset_t`: a bit for each signal, that of signal 1 first.
    #[derive(Clone, Copy)]
    #[repr(C)]
    pub struct Signals(pub [u64; 16]);

    extern "C" {
        pub fn signal(number: c_int, action: usize) -> usize;
        pub fn pthread_sigmask(how: c_int, set: *const Signals, before: *mut Signals) -> c_int;
        pub fn write(file: c_int, bytes: *const c_void, len: usize) -> isize;
        pub fn _exit(status: c_int) -> !;
    }

    pub const SIG_BLOCK: c_int = 0;
    pub const SIG_SETMASK: c_int = 2;
    pub const SIG_DFL: usize = 0;
    pub const SIG_IGN: usize = 1;
    pub const SIGBUS: c_int = 7;
    pub const SIGPIPE: c_int = 13;
    pub const SIGXFSZ: c_int = 25;
    /// SIGILL, SIGTRAP, SIGABRT, SIGBUS, SIGFPE, SIGSEGV and SIGSYS: what a program does to itself.
    pub const OWN_FAULTS: [c_int; 7] = [4, 5, 6, 7, 8, 11, 31];
}

/// A write to a pipe that nobody reads ends the program at once and quietly, as it does others.
pub fn end_at_a_closed_pipe() {
    // SAFETY: the default action runs no code of this program.
    unsafe { raw::signal(raw::SIGPIPE, raw::SIG_DFL) };
}

/// A write to a pipe that nobody reads fails with an error.
pub fn fail_at_a_closed_pipe() {
    // SAFETY: an ignored signal runs no code of this program.
    unsafe { raw::signal(raw::SIGPIPE, raw::SIG_IGN) };
}

/// A write past the greatest length of files fails with an error, and does not end the program.
pub fn fail_at_the_limit_of_a_file() {
    // SAFETY: an ignored signal runs no code of this program.
    unsafe { raw::signal(raw::SIGXFSZ, raw::SIG_IGN) };
}

/// What a thread obeyed before it held signals back.
#[derive(Clone, Copy)]
pub struct Obeyed(raw::Signals);

/// Holds back, in this thread and those that it starts, every signal that others send: they wait
/// until a thread obeys them. SIGKILL and SIGSTOP can't be held back.
pub fn hold() -> Obeyed {
    let own = raw::OWN_FAULTS.iter().map(|number| 1u64 << (number - 1));
    let mut others = raw::Signals([u64::MAX; 16]);
    others.0[0] &= !own.sum::<u64>();
    let mut before = raw::Signals([0; 16]);
    // SAFETY: both pointers are of values that live through the call, and it writes the second
    // alone. It can't fail: the first argument is one of its three.
    unsafe { raw::pthread_sigmask(raw::SIG_BLOCK, &others, &mut before) };
    Obeyed(before)
}

impl Obeyed {
    /// From now on this thread obeys them again, and first those that came meanwhile.
    pub fn again(self) {
        // SAFETY: the pointer is of a value that lives through the call; nothing is written.
        unsafe { raw::pthread_sigmask(raw::SIG_SETMASK, &self.0, null_mut()) };
    }
}

/// Work that no signal cuts off; those that came meanwhile are obeyed after it.
pub fn held<T>(work: impl FnOnce() -> T) -> T {
    let before = hold();
    let done = work();
    before.again();
    done
}

static LAST_WORDS: OnceLock<String> = OnceLock::new();

/// Says this fault and ends the program where it touches a page that a mapped file has no more,
/// since somebody cut the file short: no test beforehand can rule that out.
pub fn say_at_a_lost_page(fault: &Fault) {
    LAST_WORDS.get_or_init(|| fault.line());
    let action: extern "C" fn(c_int) = lost_page;
    // SAFETY: the action is one that a signal may run at any place: see there.
    unsafe { raw::signal(raw::SIGBUS, action as usize) };
}

extern "C" fn lost_page(_: c_int) {
    let words = LAST_WORDS.get().map_or("", |words| words);
    // SAFETY: the bytes live as long as the program; both calls may be made in a signal's action,
    // and so may the look at words that were set before it. The second does not return.
    unsafe {
        raw::write(2, words.as_ptr().cast(), words.len());
        raw::_exit(1)
    }
}
