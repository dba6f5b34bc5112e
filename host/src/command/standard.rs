//! The standard streams that were closed when the command was started.
//!
//! Before `main`, Rust opens `/dev/null` in place of a standard stream that is closed, so that what is
//! written there would be lost without an error. So this is looked at earlier still.

use std::ffi::c_int;
use std::sync::atomic::{AtomicBool, Ordering};

const STDIN: usize = 0;
const STDOUT: usize = 1;

/// The command of `fcntl` that only shows whether a descriptor is open.
const F_GETFD: c_int = 1;

extern "C" {
    fn fcntl(fd: c_int, command: c_int, ...) -> c_int;
}

static CLOSED: [AtomicBool; 2] = [const { AtomicBool::new(false) }; 2];

/// Run by the C library before `main`.
#[used]
#[link_section = ".init_array"]
static BEFORE_MAIN: extern "C" fn() = {
    extern "C" fn see() {
        for fd in [STDIN, STDOUT] {
            // SAFETY: this asks about a number, whatever it stands for, and changes nothing.
            let closed = unsafe { fcntl(fd as c_int, F_GETFD) } < 0;
            CLOSED[fd].store(closed, Ordering::Relaxed);
        }
    }
    see
};

/// Whether standard input was closed.
pub fn input_is_closed() -> bool {
    CLOSED[STDIN].load(Ordering::Relaxed)
}

/// Whether standard output was closed.
pub fn output_is_closed() -> bool {
    CLOSED[STDOUT].load(Ordering::Relaxed)
}
