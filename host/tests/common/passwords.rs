//! Passwords of as many bytes as there may be.

use super::draws;

/// How many bytes each of them has.
const LEN: usize = 1024;

/// Passwords of characters of one byte, of two, of three behind a letter, and of four. The characters
/// are drawn, so that no part of a password is like another.
pub fn longest() -> [&'static str; 4] {
    let mut draw = draws(6);
    let mut character = |first: u32, count: usize| {
        let scalar = first + draw(count) as u32;
        char::from_u32(scalar).expect("no surrogate")
    };
    [
        (0..LEN).map(|_| character('a'.into(), 26)).collect(),
        (0..LEN / 2).map(|_| character(0x0080, 0x0780)).collect(),
        (0..=LEN / 3)
            .map(|place| match place {
                0 => 'a',
                _ => character(0x3000, 0x7000),
            })
            .collect(),
        (0..LEN / 4)
            .map(|_| character(0x1_0000, 0x10_0000))
            .collect(),
    ]
    .map(|text: String| {
        assert_eq!(text.len(), LEN);
        &*text.leak()
    })
}

/// A password with another last character, of as many bytes.
pub fn last_changed(password: &str) -> String {
    let last = password.chars().next_back().expect("a character");
    let other = char::from_u32(u32::from(last) ^ 1).expect("no surrogate");
    let changed = password[..password.len() - last.len_utf8()].to_string() + &String::from(other);
    assert_eq!(changed.len(), password.len());
    changed
}
