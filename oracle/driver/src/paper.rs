//! What document 01's words say of a stream where the Rust gives no value: the number of records, the lock and its key bits,
//! the flags of questions 18 to 20, and questions 1 to 5. And what document 02's words say where the Rust says otherwise, or nothing: the scratch
//! that question 3 asks for, the key size for 0, the FILEPASS bodies that Same lock compares, what opening takes, and the padding.

use crate::port::{PASSWORD_MAX_LEN, SCRATCH_LEN, STREAM_MAX_LEN};
use std::ops::Range;

pub const BOF: u16 = 0x0809;
pub const FILEPASS: u16 = 0x002F;
pub const BOUND_SHEET: u16 = 0x0085;
/// The ids whose bodies are never enciphered.
pub const SEVEN: [u16; 7] = [BOF, FILEPASS, 0x00E1, 0x0138, 0x0194, 0x0195, 0x0196];
/// Look reads no more of a stream.
pub const LOOK_CAP: usize = 1 << 20;

pub fn u16_at(bytes: &[u8], at: usize) -> Option<u16> {
    Some(u16::from_le_bytes(bytes.get(at..at + 2)?.try_into().unwrap()))
}

pub fn u32_at(bytes: &[u8], at: usize) -> Option<u32> {
    Some(u32::from_le_bytes(bytes.get(at..at + 4)?.try_into().unwrap()))
}

/// A record: where its header is, its id, and where its body starts and ends.
pub struct Record {
    pub at: usize,
    pub id: u16,
    pub start: usize,
    pub end: usize,
}

impl Record {
    /// How many bytes at the body's start are never enciphered.
    pub fn clear(&self) -> usize {
        let len = self.end - self.start;
        if SEVEN.contains(&self.id) {
            len
        } else if self.id == BOUND_SHEET {
            len.min(4)
        } else {
            0
        }
    }
}

/// The records of a stream, up to its padding, or to the first that can't be read.
pub fn records(stream: &[u8]) -> impl Iterator<Item = Record> + '_ {
    let mut at = 0;
    std::iter::from_fn(move || {
        let (id, len) = (u16_at(stream, at)?, u16_at(stream, at + 2)?);
        let record = Record { at, id, start: at + 4, end: at + 4 + len as usize };
        if record.end > stream.len() {
            return None;
        }
        at = record.end;
        Some(record)
    })
}

/// How many bytes of padding a stream has: one to three after the last record, all zero, or 0 where there is none (document 02, T-05).
pub fn padding(stream: &[u8]) -> usize {
    let end = records(stream).last().map_or(0, |record| record.end);
    let rest = &stream[end..];
    if rest.len() < 4 && rest.iter().all(|byte| *byte == 0) {
        rest.len()
    } else {
        0
    }
}

/// The body of the first FILEPASS.
pub fn filepass(stream: &[u8]) -> Option<&[u8]> {
    let record = records(stream).find(|record| record.id == FILEPASS)?;
    Some(&stream[record.start..record.end])
}

/// The flags of a CryptoAPI lock: at header byte 0, which is structure byte 12 and body byte 14.
pub fn flags(stream: &[u8]) -> Option<u32> {
    u32_at(filepass(stream)?, 14)
}

/// The key size in bits that Look reports where the four bytes are there and 0: document 02, T-03, by MS-OFFCRYPTO 2.3.5.1.
pub const ZERO_MEANS: u64 = 40;

/// Where the header of the first FILEPASS is, and the part of the stream that is its body, as far as it is there and among the bytes that Look reads,
/// whatever length the header states (document 02, T-08). Asked only where Look says yes, so the headers up to that one are whole.
pub fn seen_filepass(stream: &[u8]) -> Option<(usize, Range<usize>)> {
    let book = &stream[..stream.len().min(LOOK_CAP)];
    let mut at = 0;
    while u16_at(book, at)? != FILEPASS {
        at += 4 + u16_at(book, at + 2)? as usize;
    }
    let end = at + 4 + u16_at(book, at + 2)? as usize;
    Some((at, at + 4..book.len().min(end)))
}

/// The bytes of that body.
pub fn seen_body(stream: &[u8]) -> Option<&[u8]> {
    seen_filepass(stream).map(|(_, body)| &stream[body])
}

/// The four bytes of the key size, if all of them lie in that body.
fn stated_key_size(stream: &[u8]) -> Option<u32> {
    u32_at(seen_body(stream)?, 30)
}

/// The key size in place of the Rust's, where the standard decides: a lock of version 2.2, 3.2 or 4.2 that states a key size of 0, for which the Rust
/// reports none.
pub fn instead(stream: &[u8], (number, [_, there, major, minor, key_size]): (u32, [u64; 5])) -> Option<u64> {
    let sized = number == 2 && there == 1 && (2..=4).contains(&major) && minor == 2;
    (sized && key_size == 0 && stated_key_size(stream) == Some(0)).then_some(ZERO_MEANS)
}

/// The number of records, the lock (0 XOR, 1 the 1.1 lock, 2 CryptoAPI) and the key bits of a stream that was opened.
pub fn report(stream: &[u8]) -> Option<[u64; 3]> {
    let count = records(stream).count() as u64;
    let body = filepass(stream)?;
    if u16_at(body, 0)? == 0 {
        return Some([count, 0, 0]);
    }
    if (u16_at(body, 2)?, u16_at(body, 4)?) == (1, 1) {
        return Some([count, 1, 40]);
    }
    let stated = u32_at(body, 30)?;
    Some([count, 2, if stated == 0 { 40 } else { stated.into() }])
}

/// The bytes of a block that has a key of its own.
const BLOCK: usize = 1024;

/// What opening a stream takes that no question refuses: output bytes, records, enciphered body bytes and block keys (document 02, T-04). Padding
/// counts in the output bytes and the block keys, and in no other (T-05).
pub fn counts(stream: &[u8]) -> Option<[u64; 4]> {
    let (mut count, mut enciphered) = (0, 0);
    for record in records(stream) {
        count += 1;
        enciphered += record.end - record.start - record.clear();
    }
    let under_xor = u16_at(filepass(stream)?, 0)? == 0;
    let keys = if under_xor { 0 } else { 1 + stream.len().div_ceil(BLOCK) };
    Some([stream.len() as u64, count, enciphered as u64, keys as u64])
}

/// The number of the forecast and its facts, of a stream that Open answers so when it is lent enough.
pub fn forecast(stream: &[u8], number: u32, details: [u64; 2]) -> (u32, [u64; 8]) {
    let mut facts = [0; 8];
    if let 0 | 27 = number {
        facts[..4].copy_from_slice(&counts(stream).expect("it has a lock"));
        return (0, facts);
    }
    facts[..2].copy_from_slice(&details);
    (number, facts)
}

/// Questions 1 to 5, on what is lent: the first that is answered "no".
pub fn lent(stream_len: usize, password: &[u8], scratch_len: usize, output_len: usize) -> Option<u32> {
    let answers = [
        password.len() <= PASSWORD_MAX_LEN,
        std::str::from_utf8(password).is_ok(),
        scratch_len >= SCRATCH_LEN,
        stream_len <= STREAM_MAX_LEN,
        output_len >= stream_len,
    ];
    answers.iter().position(|yes| !yes).map(|k| k as u32 + 1)
}
