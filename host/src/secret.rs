//! A password's memory.

use std::fmt;
use std::io::{self, Read};
use std::sync::atomic::{compiler_fence, Ordering};

use std::vec;
use std::vec::Vec;

use crate::open::PASSWORD_MAX_LEN;

/// Room for the longest password, a CRLF after it, and one byte more that shows that it is longer.
const ROOM: usize = PASSWORD_MAX_LEN + 3;

/// The bytes of a password, wiped when they are dropped.
///
/// The memory is taken once and never grows, so no earlier copy is left behind, and it is never
/// printed.
///
/// ```
/// let mut password = sheet::Secret::new();
/// password.read_from(&mut &b"Unruh\r\n"[..])?;
/// password.trim_newline();
/// assert_eq!(password.as_bytes(), b"Unruh");
/// # Ok::<(), std::io::Error>(())
/// ```
pub struct Secret {
    /// Always of its full length: the password, then bytes that don't count.
    room: Vec<u8>,
    len: usize,
}

impl Secret {
    /// An empty password with room for the longest one.
    #[must_use]
    pub fn new() -> Self {
        Secret {
            room: vec![0; ROOM],
            len: 0,
        }
    }

    /// The password in bytes that are there already. They are not copied.
    #[must_use]
    pub fn from_vec(bytes: Vec<u8>) -> Self {
        Secret {
            len: bytes.len(),
            room: bytes,
        }
    }

    /// The password.
    #[must_use]
    pub fn as_bytes(&self) -> &[u8] {
        &self.room[..self.len]
    }

    /// Reads on until the source ends or there is no more room. A password that fills the room is
    /// longer than [`PASSWORD_MAX_LEN`], whatever would follow.
    pub fn read_from(&mut self, source: &mut impl Read) -> io::Result<()> {
        while self.read_once(source)? != 0 {}
        Ok(())
    }

    /// Reads up to a line's end, which is kept, or as [`Secret::read_from`] does. Bytes after the
    /// line's end that come with the same read count too: a terminal gives a line at a time.
    pub fn read_line_from(&mut self, source: &mut impl Read) -> io::Result<()> {
        while !self.as_bytes().contains(&b'\n') && self.read_once(source)? != 0 {}
        Ok(())
    }

    /// Reads once and returns how many bytes came.
    fn read_once(&mut self, source: &mut impl Read) -> io::Result<usize> {
        loop {
            match source.read(&mut self.room[self.len..]) {
                Ok(came) => {
                    self.len += came;
                    return Ok(came);
                }
                Err(error) if error.kind() == io::ErrorKind::Interrupted => {}
                Err(error) => return Err(error),
            }
        }
    }

    /// Takes one newline off the end, LF or CRLF.
    pub fn trim_newline(&mut self) {
        if self.as_bytes().ends_with(b"\n") {
            self.len -= 1;
            if self.as_bytes().ends_with(b"\r") {
                self.len -= 1;
            }
        }
    }

    /// Overwrites all of the memory.
    fn wipe(&mut self) {
        let first = self.room.as_mut_ptr();
        for at in 0..self.room.capacity() {
            // SAFETY: `at` is below the capacity, and that many bytes are allocated. The write is
            // volatile, so it is made though nobody reads it.
            unsafe { first.add(at).write_volatile(0) };
        }
        compiler_fence(Ordering::SeqCst);
        self.len = 0;
    }
}

impl Default for Secret {
    fn default() -> Self {
        Secret::new()
    }
}

impl Drop for Secret {
    fn drop(&mut self) {
        self.wipe();
    }
}

impl fmt::Debug for Secret {
    fn fmt(&self, f: &mut fmt::Formatter<'_>) -> fmt::Result {
        f.write_str("Secret(..)")
    }
}

#[cfg(test)]
mod tests {
    use super::*;
    use std::format;

    /// A source that gives one byte a read.
    struct Slow<'a>(&'a [u8]);

    impl Read for Slow<'_> {
        fn read(&mut self, into: &mut [u8]) -> io::Result<usize> {
            let n = usize::from(!self.0.is_empty()).min(into.len());
            into[..n].copy_from_slice(&self.0[..n]);
            self.0 = &self.0[n..];
            Ok(n)
        }
    }

    #[test]
    fn wiping_reaches_every_byte_of_the_memory() {
        let mut bytes = Vec::with_capacity(64);
        bytes.extend_from_slice(b"Ankerhemmung");
        bytes.truncate(5);
        let mut secret = Secret::from_vec(bytes);
        assert_eq!(secret.as_bytes(), b"Anker");
        secret.wipe();
        assert_eq!(secret.as_bytes(), b"");
        // SAFETY: wiping has written to all of the capacity.
        unsafe { secret.room.set_len(secret.room.capacity()) };
        assert!(secret.room.len() >= 64);
        assert!(secret.room.iter().all(|&byte| byte == 0));
    }

    #[test]
    fn the_memory_stays_where_it_is_while_it_is_filled() {
        for len in [0, 1, PASSWORD_MAX_LEN, ROOM, ROOM + 1, 5000] {
            let text = vec![b'x'; len];
            let mut secret = Secret::new();
            let before = (secret.room.as_ptr(), secret.room.capacity());
            secret.read_from(&mut Slow(&text)).unwrap();
            assert_eq!(before, (secret.room.as_ptr(), secret.room.capacity()));
            assert_eq!(secret.as_bytes(), &text[..len.min(ROOM)]);
        }
    }

    #[test]
    fn a_password_that_is_too_long_stays_too_long() {
        for end in ["", "\n", "\r\n"] {
            for (len, too_long) in [(1024, false), (1025, true), (1026, true), (4000, true)] {
                let text = "x".repeat(len) + end;
                let mut secret = Secret::new();
                secret.read_from(&mut text.as_bytes()).unwrap();
                secret.trim_newline();
                assert_eq!(
                    secret.as_bytes().len() > PASSWORD_MAX_LEN,
                    too_long,
                    "{len} {end:?}"
                );
            }
        }
    }

    #[test]
    fn one_newline_is_taken_off_and_no_more() {
        for (text, kept) in [
            ("a", "a"),
            ("a\n", "a"),
            ("a\r\n", "a"),
            ("a\n\n", "a\n"),
            ("a\r\n\r\n", "a\r\n"),
            ("a\r", "a\r"),
            ("\n", ""),
            ("\r\n", ""),
            ("", ""),
        ] {
            let mut secret = Secret::new();
            secret.read_from(&mut text.as_bytes()).unwrap();
            secret.trim_newline();
            assert_eq!(secret.as_bytes(), kept.as_bytes(), "{text:?}");
        }
    }

    #[test]
    fn a_line_ends_the_reading() {
        let mut source = Slow(b"Unruh\nSpirale\n");
        let mut secret = Secret::new();
        secret.read_line_from(&mut source).unwrap();
        assert_eq!(secret.as_bytes(), b"Unruh\n");
        assert_eq!(source.0, b"Spirale\n");
    }

    #[test]
    fn nothing_of_it_is_printed() {
        let secret = Secret::from_vec(b"Unruh".to_vec());
        assert_eq!(format!("{secret:?}"), "Secret(..)");
    }
}
