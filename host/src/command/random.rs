//! The system's random source.

use std::fs::File;
use std::io::{self, ErrorKind, Read};
use std::os::unix::fs::FileTypeExt;

use super::failure::Failure;

/// The device that gives numbers that nobody can foretell.
const SOURCE: &str = "/dev/urandom";

/// Draws the salt and the verifier of a sealing.
pub fn salt_and_verifier() -> Result<([u8; 16], [u8; 16]), Failure> {
    let drawn = File::open(SOURCE).and_then(|mut source| {
        // A file of this name would give the same each time.
        if !source.metadata()?.file_type().is_char_device() {
            return Err(io::Error::other("this is not a device"));
        }
        Ok((draw(&mut source)?, draw(&mut source)?))
    });
    drawn.map_err(|error| {
        let words = match error.kind() {
            ErrorKind::UnexpectedEof => "it ended too early".to_string(),
            _ => error.to_string(),
        };
        Failure::at(
            SOURCE,
            &format!(
                "the system's random source gave no salt ({words}), without which nothing is sealed"
            ),
        )
    })
}

/// Draws 16 bytes. A source that ends before is an error, and so is one that gives zeros alone.
fn draw(source: &mut impl Read) -> io::Result<[u8; 16]> {
    let mut bytes = [0; 16];
    source.read_exact(&mut bytes)?;
    if bytes == [0; 16] {
        return Err(io::Error::other("it gives zeros and nothing else"));
    }
    Ok(bytes)
}

#[cfg(test)]
mod tests {
    use super::*;

    /// A source that fails.
    struct Broken;

    impl Read for Broken {
        fn read(&mut self, _: &mut [u8]) -> io::Result<usize> {
            Err(ErrorKind::PermissionDenied.into())
        }
    }

    #[test]
    fn bytes_are_taken_as_they_come() {
        let bytes: Vec<u8> = (0..40).collect();
        let mut source = &bytes[..];
        assert_eq!(draw(&mut source).unwrap()[..], bytes[..16]);
        assert_eq!(draw(&mut source).unwrap()[..], bytes[16..32]);
        let error = draw(&mut source).unwrap_err();
        assert_eq!(error.kind(), ErrorKind::UnexpectedEof);
    }

    #[test]
    fn zeros_alone_are_refused_and_one_other_byte_is_not() {
        let error = draw(&mut &[0; 32][..]).unwrap_err();
        assert!(error.to_string().contains("zeros"));
        for place in 0..16 {
            let mut bytes = [0; 16];
            bytes[place] = 1;
            assert_eq!(draw(&mut &bytes[..]).unwrap(), bytes);
        }
    }

    #[test]
    fn a_source_that_ends_or_fails_is_an_error() {
        for len in 0..16 {
            let error = draw(&mut &vec![7; len][..]).unwrap_err();
            assert_eq!(error.kind(), ErrorKind::UnexpectedEof, "{len}");
        }
        let error = draw(&mut Broken).unwrap_err();
        assert_eq!(error.kind(), ErrorKind::PermissionDenied);
    }

    #[test]
    fn the_system_gives_other_numbers_each_time() {
        let first = salt_and_verifier().unwrap();
        let second = salt_and_verifier().unwrap();
        let all = [first.0, first.1, second.0, second.1];
        for (k, bytes) in all.iter().enumerate() {
            assert!(!all[..k].contains(bytes));
        }
    }
}
