//! What is put right when the command is interrupted (ctrl-C, a closed terminal, `kill`): the
//! terminal's echo, and a file that is not whole. Nothing can be done on `kill -9`.

use std::ffi::{c_char, c_int, CString};
use std::os::unix::ffi::OsStrExt;
use std::path::Path;
use std::ptr;
use std::sync::atomic::{AtomicPtr, Ordering};

use super::terminal::{self, Saved};

const SIGHUP: c_int = 1;
const SIGINT: c_int = 2;
const SIGQUIT: c_int = 3;
const SIGTERM: c_int = 15;
const SIGTSTP: c_int = 20;
const SIGXFSZ: c_int = 25;

/// The default way of a signal, and the way of one that is ignored.
const SIG_DFL: usize = 0;
const SIG_IGN: usize = 1;

extern "C" {
    fn signal(number: c_int, handler: usize) -> usize;
    fn raise(number: c_int) -> c_int;
    fn unlink(path: *const c_char) -> c_int;
}

/// The terminal's settings to go back to, and the file to remove. Null where there is nothing to
/// do.
static SETTINGS: AtomicPtr<Saved> = AtomicPtr::new(ptr::null_mut());
static PART: AtomicPtr<c_char> = AtomicPtr::new(ptr::null_mut());

/// Has a file that grows past a limit give an error, in place of a signal that ends the command.
pub fn ignore_file_size_signal() {
    // SAFETY: no code of ours runs on the signal.
    unsafe { signal(SIGXFSZ, SIG_IGN) };
}

/// Removes a file when the command is interrupted, until [`keep_when_interrupted`].
pub fn remove_when_interrupted(path: &Path) {
    if let Ok(path) = CString::new(path.as_os_str().as_bytes()) {
        PART.store(path.into_raw(), Ordering::SeqCst);
        install();
    }
}

/// Nothing is removed any more.
pub fn keep_when_interrupted() {
    let path = PART.swap(ptr::null_mut(), Ordering::SeqCst);
    if !path.is_null() {
        // SAFETY: the pointer came from `CString::into_raw`, and the swap took it out of everyone
        // else's reach.
        drop(unsafe { CString::from_raw(path) });
    }
}

/// A terminal with other settings than its own. It gets its own back when this is dropped, and when
/// the command is interrupted.
pub struct Changed {
    /// What ctrl-Z did before.
    stop: usize,
}

impl Changed {
    /// To be called before the settings are changed. Ctrl-Z does nothing from here on: a command
    /// that is stopped would leave the terminal without its settings.
    pub fn from(settings: Saved) -> Changed {
        SETTINGS.store(Box::into_raw(Box::new(settings)), Ordering::SeqCst);
        install();
        // SAFETY: no code of ours runs on the signal.
        let stop = unsafe { signal(SIGTSTP, SIG_IGN) };
        Changed { stop }
    }
}

impl Drop for Changed {
    fn drop(&mut self) {
        let settings = SETTINGS.load(Ordering::SeqCst);
        if !settings.is_null() {
            // SAFETY: the pointer came from `Box::into_raw`, and only here is it freed.
            terminal::restore(unsafe { &*settings });
            SETTINGS.store(ptr::null_mut(), Ordering::SeqCst);
            // SAFETY: as above, and a signal's handler finds null from here on.
            drop(unsafe { Box::from_raw(settings) });
        }
        // SAFETY: what the signal did before was in order.
        unsafe { signal(SIGTSTP, self.stop) };
    }
}

/// Has `interrupted` run on the signals that end a command, save those that whoever started it has
/// ignored.
fn install() {
    for number in [SIGHUP, SIGINT, SIGQUIT, SIGTERM] {
        // SAFETY: `interrupted` does only what a signal handler may.
        unsafe {
            if signal(number, interrupted as *const () as usize) == SIG_IGN {
                signal(number, SIG_IGN);
            }
        }
    }
}

/// Puts things right and lets the signal end the command. It calls only functions that POSIX admits
/// in a signal handler.
extern "C" fn interrupted(number: c_int) {
    let settings = SETTINGS.swap(ptr::null_mut(), Ordering::SeqCst);
    if !settings.is_null() {
        // SAFETY: the pointer came from `Box::into_raw` and is never freed once it was taken out
        // here.
        terminal::restore(unsafe { &*settings });
    }
    let path = PART.swap(ptr::null_mut(), Ordering::SeqCst);
    // SAFETY: a path that is there is a C string, never freed once it was taken out here. The
    // signal waits until this function returns, and then does what it does by default.
    unsafe {
        if !path.is_null() {
            unlink(path);
        }
        signal(number, SIG_DFL);
        raise(number);
    }
}
