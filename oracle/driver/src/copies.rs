//! Copies of a locked stream whose lock is the same, or almost: for Same lock, which random streams seldom have in common.

use crate::lock::put_record;
use crate::paper::u16_at;
use std::ops::Range;

/// What is different in a copy.
#[derive(Clone, Copy, Debug, PartialEq, Eq, PartialOrd, Ord)]
pub enum Kind {
    /// One bit of the body, as far as it is seen: of its first byte, of its last, or of any other.
    Turned,
    /// The first byte that is not seen: behind the body, or past the cap.
    Behind,
    /// The length that the header states: one less, one more, as many as are there, or as many as can be.
    Stated,
    /// A clear record before the lock.
    Before,
    /// The stream ends at the body's end, one byte before it, or at its start.
    Cut,
}

pub const KINDS: [Kind; 5] = [Kind::Turned, Kind::Behind, Kind::Stated, Kind::Before, Kind::Cut];

impl Kind {
    /// Whether a stream and such a copy can have different locks, and whether they can have the same. A record before the lock makes it another one
    /// where it pushes part of it past the cap.
    pub fn possible(self) -> [bool; 2] {
        match self {
            Kind::Turned => [true, false],
            Kind::Behind => [false, true],
            Kind::Stated | Kind::Before | Kind::Cut => [true, true],
        }
    }
}

/// The copy of this kind, if the stream has one, where its FILEPASS header is at this offset and its body, as far as it is seen, there. A pure
/// function, in which the number chooses among what is possible.
pub fn copy(kind: Kind, stream: &[u8], (at, body): (usize, Range<usize>), number: u64) -> Option<Vec<u8>> {
    let number = number as usize;
    let mut copy = stream.to_vec();
    match kind {
        Kind::Turned => {
            let last = body.len().checked_sub(1)?;
            let place = [0, last, number * 31 % body.len(), last / 2][number % 4];
            copy[body.start + place] ^= 1 << (number / 4 % 8);
        }
        Kind::Behind => *copy.get_mut(body.end)? ^= 1 << (number % 8),
        Kind::Stated => {
            let stated = u16_at(stream, at + 2)?;
            let there = (stream.len() - body.start).min(0xFFFF) as u16;
            let other = [stated.wrapping_sub(1), stated.wrapping_add(1), there, 0xFFFF][number % 4];
            copy[at + 2..at + 4].copy_from_slice(&other.to_le_bytes());
        }
        Kind::Before => {
            let mut record = Vec::new();
            put_record(&mut record, 0x00E1, &[0x2F; 5][..number % 6]);
            copy.splice(at..at, record);
        }
        Kind::Cut => {
            let end = [body.end, body.end.max(body.start + 1) - 1, body.start][number % 3];
            copy.truncate(end);
        }
    }
    Some(copy)
}
