//! A prompt on the terminal that does not echo.
//!
//! The declarations are those of the C library for Linux on x86-64.

#[cfg(not(all(target_os = "linux", target_arch = "x86_64")))]
compile_error!("the terminal's settings are declared for Linux on x86-64");

use std::ffi::c_int;
use std::fs::{File, OpenOptions};
use std::io::{self, Write};
use std::os::fd::AsRawFd;

use sheet::Secret;

use super::interrupt::Changed;

/// `struct termios`.
#[repr(C)]
#[derive(Clone, Copy)]
struct Termios {
    input: u32,
    output: u32,
    control: u32,
    local: u32,
    line: u8,
    characters: [u8; 32],
    input_speed: u32,
    output_speed: u32,
}

/// Local modes: what is typed is shown; a newline is shown though nothing else is.
const ECHO: u32 = 0o10;
const ECHONL: u32 = 0o100;

/// Settings are changed when all output is out, and what was typed before is dropped.
const TCSAFLUSH: c_int = 2;

extern "C" {
    fn tcgetattr(fd: c_int, settings: *mut Termios) -> c_int;
    fn tcsetattr(fd: c_int, when: c_int, settings: *const Termios) -> c_int;
}

/// The settings of an open terminal.
pub struct Saved {
    fd: c_int,
    settings: Termios,
}

/// Goes back to settings. May be called in a signal handler.
pub fn restore(saved: &Saved) {
    // SAFETY: the settings are read only. A terminal that was closed meanwhile gives an error,
    // which changes nothing.
    unsafe { tcsetattr(saved.fd, TCSAFLUSH, &saved.settings) };
}

/// The terminal that the command was started from, wherever standard input and output go.
pub fn open() -> io::Result<File> {
    OpenOptions::new().read(true).write(true).open("/dev/tty")
}

/// Asks for a password. `None` if the input ended before a line did.
pub fn ask(terminal: &mut File, prompt: &str) -> io::Result<Option<Secret>> {
    let shown = settings(terminal)?;
    let mut hidden = shown;
    hidden.local = hidden.local & !ECHO | ECHONL;
    let changed = Changed::from(Saved {
        fd: terminal.as_raw_fd(),
        settings: shown,
    });
    set(terminal, &hidden)?;
    terminal.write_all(prompt.as_bytes())?;
    let mut secret = Secret::new();
    secret.read_line_from(terminal)?;
    // What was typed beyond the room is dropped here, so that it does not end up in the shell.
    drop(changed);
    if secret.as_bytes().is_empty() {
        terminal.write_all(b"\n")?;
        return Ok(None);
    }
    secret.trim_newline();
    Ok(Some(secret))
}

fn settings(terminal: &File) -> io::Result<Termios> {
    let mut settings = Termios {
        input: 0,
        output: 0,
        control: 0,
        local: 0,
        line: 0,
        characters: [0; 32],
        input_speed: 0,
        output_speed: 0,
    };
    // SAFETY: the descriptor is open, and the settings are a local with the C library's layout.
    match unsafe { tcgetattr(terminal.as_raw_fd(), &mut settings) } {
        0 => Ok(settings),
        _ => Err(io::Error::last_os_error()),
    }
}

fn set(terminal: &File, settings: &Termios) -> io::Result<()> {
    // SAFETY: the descriptor is open, and the settings are read only.
    match unsafe { tcsetattr(terminal.as_raw_fd(), TCSAFLUSH, settings) } {
        0 => Ok(()),
        _ => Err(io::Error::last_os_error()),
    }
}
