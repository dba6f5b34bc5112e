//! XOR obfuscation (MS-OFFCRYPTO 2.3.7.1 to 2.3.7.3), to make locked books for the tests.

const PAD: [u8; 15] = [
    0xBB, 0xFF, 0xFF, 0xBA, 0xFF, 0xFF, 0xB9, 0x80, 0x00, 0xBE, 0x0F, 0x00, 0xBF, 0x0F, 0x00,
];

/// InitialCode, by the password's length less one.
const INITIAL: [u16; 15] = [
    0xE1F0, 0x1D0F, 0xCC9C, 0x84C0, 0x110C, 0x0E10, 0xF1CE, 0x313E, 0x1872, 0xE139, 0xD40F, 0x84F9,
    0x280C, 0xA96A, 0x4EC3,
];

/// The first entry of each row of seven of XorMatrix. Each later entry is the one before doubled,
/// exclusive-or 1021 if the top bit fell off.
const ROWS: [u16; 15] = [
    0xAEFC, 0x7B61, 0x4563, 0x0375, 0xD849, 0x6F45, 0xEB23, 0x47D3, 0xB861, 0x45A0, 0xAA51, 0x76B4,
    0x3730, 0x3331, 0x1021,
];

fn matrix(row: usize, column: usize) -> u16 {
    (0..column).fold(ROWS[row], |entry, _| {
        entry << 1 ^ if entry & 0x8000 != 0 { 0x1021 } else { 0 }
    })
}

pub fn key(password: &[u8]) -> u16 {
    let first_row = 15 - password.len();
    let mut key = INITIAL[password.len() - 1];
    for (place, byte) in password.iter().enumerate() {
        for bit in 0..7 {
            if byte >> bit & 1 != 0 {
                key ^= matrix(first_row + place, bit);
            }
        }
    }
    key
}

pub fn verifier(password: &[u8]) -> u16 {
    let length = password.len() as u8;
    let mut verifier: u16 = 0;
    for byte in password.iter().rev().chain([&length]) {
        verifier = verifier >> 14 & 1 | verifier << 1 & 0x7FFF;
        verifier ^= u16::from(*byte);
    }
    verifier ^ 0xCE4B
}

pub fn array(password: &[u8]) -> [u8; 16] {
    let halves = key(password).to_le_bytes();
    std::array::from_fn(|place| {
        let source = *password
            .get(place)
            .unwrap_or_else(|| &PAD[place - password.len()]);
        (source ^ halves[place % 2]).rotate_right(1)
    })
}

/// Enciphers a body behind its clear part. `end` is the offset of the body's end in the stream.
pub fn seal(body: &[u8], clear: usize, end: usize, password: &[u8]) -> Vec<u8> {
    let array = array(password);
    let mut sealed = body.to_vec();
    for (k, byte) in sealed[clear..].iter_mut().enumerate() {
        *byte = byte.rotate_left(5) ^ array[(end + clear + k) % 16];
    }
    sealed
}
