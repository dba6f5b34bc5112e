//! A terminal that a test types at.

use std::ffi::{c_char, c_int, CStr};
use std::fs::{File, OpenOptions};
use std::io::{self, Read, Write};
use std::os::fd::{AsRawFd, FromRawFd};
use std::os::unix::fs::OpenOptionsExt;
use std::os::unix::process::CommandExt;
use std::process::Command;
use std::sync::{Arc, Mutex};
use std::thread::{self, JoinHandle};

use super::process::wait_until;

const O_RDWR: c_int = 2;
const O_NOCTTY: c_int = 0o400;
const O_CLOEXEC: c_int = 0o2000000;
const TIOCSCTTY: u64 = 0x540E;

extern "C" {
    fn posix_openpt(flags: c_int) -> c_int;
    fn grantpt(fd: c_int) -> c_int;
    fn unlockpt(fd: c_int) -> c_int;
    fn ptsname_r(fd: c_int, name: *mut c_char, len: usize) -> c_int;
    fn setsid() -> c_int;
    fn ioctl(fd: c_int, request: u64, ...) -> c_int;
}

pub struct Terminal {
    master: File,
    /// Kept open, so that what is shown can be read to its end.
    pub slave: File,
    shown: Arc<Mutex<Vec<u8>>>,
    reader: JoinHandle<()>,
}

impl Terminal {
    pub fn open() -> Terminal {
        let mut name = [0; 64];
        // SAFETY: each function is called as POSIX has it; the name has room for the length that is
        // said.
        let (master, path) = unsafe {
            let fd = posix_openpt(O_RDWR | O_NOCTTY | O_CLOEXEC);
            assert!(fd >= 0, "{}", io::Error::last_os_error());
            assert_eq!((grantpt(fd), unlockpt(fd)), (0, 0));
            assert_eq!(ptsname_r(fd, name.as_mut_ptr(), name.len()), 0);
            (File::from_raw_fd(fd), CStr::from_ptr(name.as_ptr()))
        };
        let slave = OpenOptions::new()
            .read(true)
            .write(true)
            .custom_flags(O_NOCTTY)
            .open(path.to_str().unwrap())
            .unwrap();
        let shown = Arc::new(Mutex::new(Vec::new()));
        let (mut source, to) = (master.try_clone().unwrap(), Arc::clone(&shown));
        let reader = thread::spawn(move || {
            let mut part = [0; 512];
            while let Ok(len @ 1..) = source.read(&mut part) {
                to.lock().unwrap().extend(&part[..len]);
            }
        });
        Terminal {
            master,
            slave,
            shown,
            reader,
        }
    }

    /// Has a command run with this as its terminal.
    pub fn attach(&self, command: &mut Command) {
        let slave = self.slave.as_raw_fd();
        // SAFETY: both functions may be called between fork and exec.
        unsafe {
            command.pre_exec(move || {
                setsid();
                match ioctl(slave, TIOCSCTTY, 0) {
                    0 => Ok(()),
                    _ => Err(io::Error::last_os_error()),
                }
            })
        };
    }

    pub fn write(&mut self, keys: &[u8]) {
        self.master.write_all(keys).unwrap();
    }

    /// What was shown so far.
    fn shown(&self) -> String {
        String::from_utf8_lossy(&self.shown.lock().unwrap()).into_owned()
    }

    /// All that was shown. Every command at the terminal has ended by now.
    pub fn end(self) -> String {
        drop(self.slave);
        wait_until("the terminal's end", || self.reader.is_finished());
        self.reader.join().unwrap();
        let shown = self.shown.lock().unwrap();
        String::from_utf8_lossy(&shown).into_owned()
    }

    /// Waits until something is shown.
    #[track_caller]
    pub fn wait_for(&self, words: &str) {
        wait_until(words, || self.shown().contains(words));
    }
}
