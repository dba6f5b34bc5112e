//! What the tests share. Each test program uses a part of it.
#![allow(dead_code)]

pub mod bare;
pub mod bench;
pub mod book;
pub mod digest;
pub mod fenced;
pub mod folder;
pub mod guarded;
pub mod installed;
pub mod lent;
pub mod opening;
pub mod parts;
pub mod passwords;
pub mod process;
pub mod pty;
pub mod rc4;
pub mod sealing;
pub mod walk;
pub mod xor;

/// Numbers below a bound, always the same ones for a seed.
pub fn draws(seed: u32) -> impl FnMut(usize) -> usize {
    let mut state = seed;
    move |below| {
        state = state.wrapping_mul(1_664_525).wrapping_add(1_013_904_223);
        (state >> 8) as usize % below
    }
}

/// UTF-16LE.
pub fn utf16(text: &str) -> Vec<u8> {
    text.encode_utf16().flat_map(u16::to_le_bytes).collect()
}
