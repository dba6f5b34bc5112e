//! Holds the RC4 shim against lines that RFC 6229 publishes, before anything is compared.

use rc4::{KeyInit, Rc4, StreamCipher};

/// A key, an offset, and the 16 keystream bytes there.
#[rustfmt::skip]
const LINES: [(&str, usize, &str); 15] = [
    ("0102030405", 0, "b2396305f03dc027ccc3524a0a1118a8"),
    ("0102030405", 240, "28cb1132c96ce286421dcaadb8b69eae"),
    ("0102030405", 4096, "ff25b58995996707e51fbdf08b34d875"),
    ("01020304050607", 0, "293f02d47f37c9b633f2af5285feb46b"),
    ("01020304050607", 496, "75f81411e871cffa70b90c74c592e454"),
    ("01020304050607", 4096, "e74b0b9731227fd37c0ec08a47ddd8b8"),
    ("0102030405060708", 0, "97ab8a1bf0afb96132f2f67258da15a8"),
    ("0102030405060708", 1008, "273c9c4b27f322e4e716ef53a47de7a4"),
    ("0102030405060708", 4096, "3fb46e2c8f0f068edce8cdcd7dfc5862"),
    ("0102030405060708090a", 0, "ede3b04643e586cc907dc21851709902"),
    ("0102030405060708090a", 2032, "b55a0a5b51a12a8be34899c3e047511a"),
    ("0102030405060708090a", 4096, "08b6be45124a43e2eb77953f84dc8553"),
    ("0102030405060708090a0b0c0d0e0f10", 0, "9ac7cc9a609d1ef7b2932899cde41b97"),
    ("0102030405060708090a0b0c0d0e0f10", 768, "eccbe13de1fcc91c11a0b26c0bc8fa4d"),
    ("0102030405060708090a0b0c0d0e0f10", 4096, "a36a4c301ae8ac13610ccbc12256cacc"),
];

fn bytes_of(hex: &str) -> Vec<u8> {
    (0..hex.len()).step_by(2).map(|at| u8::from_str_radix(&hex[at..at + 2], 16).unwrap()).collect()
}

pub fn run() {
    for (key, offset, published) in LINES {
        let mut keystream = vec![0; offset + 16];
        Rc4::new_from_slice(&bytes_of(key)).unwrap().apply_keystream(&mut keystream);
        assert_eq!(keystream[offset..], bytes_of(published), "RC4 is not RFC 6229's: key {key}, offset {offset}");
    }
}
