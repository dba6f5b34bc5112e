//! The helpers that make locked books, held against known values.

mod common;

use common::digest::{md5, sha1};
use common::rc4::Rc4;
use common::{utf16, xor};

fn hex(bytes: &[u8]) -> String {
    bytes.iter().map(|byte| format!("{byte:02x}")).collect()
}

#[test]
fn sha1_of_known_messages() {
    // FIPS 180-4's examples.
    assert_eq!(
        hex(&sha1(b"abc")),
        "a9993e364706816aba3e25717850c26c9cd0d89d"
    );
    assert_eq!(
        hex(&sha1(
            b"abcdbcdecdefdefgefghfghighijhijkijkljklmklmnlmnomnopnopq"
        )),
        "84983e441c3bd26ebaae4aa1f95129e5e54670f1"
    );
    assert_eq!(hex(&sha1(b"")), "da39a3ee5e6b4b0d3255bfef95601890afd80709");
}

#[test]
fn md5_of_known_messages() {
    // RFC 1321, A.5.
    assert_eq!(hex(&md5(b"")), "d41d8cd98f00b204e9800998ecf8427e");
    assert_eq!(hex(&md5(b"abc")), "900150983cd24fb0d6963f7d28e17f72");
    let digits = b"1234567890".repeat(8);
    assert_eq!(hex(&md5(&digits)), "57edf4a22be3c955ac49da2e2107b67a");
}

#[test]
fn rc4_of_known_keys() {
    // RFC 6229, offset 0, for the keys of 40 and 128 bits.
    let first = |key: &[u8]| hex(&Rc4::new(key).apply(&[0; 16]));
    assert_eq!(first(&[1, 2, 3, 4, 5]), "b2396305f03dc027ccc3524a0a1118a8");
    let key: Vec<u8> = (1..=16).collect();
    assert_eq!(first(&key), "9ac7cc9a609d1ef7b2932899cde41b97");
}

#[test]
fn xor_of_a_known_password() {
    // Document 01's short books.
    assert_eq!((xor::key(b"A"), xor::verifier(b"A")), (0xB915, 0xCEC8));
    let array = xor::array(b"A");
    assert_eq!((array[0], array[1], array[15]), (0x2A, 0x01, 0xDC));
    // The plain body BE 19 of document 01, sealed; its end is at offset 20.
    assert_eq!(xor::seal(&[0xBE, 0x19], 0, 20, b"A"), [0, 0]);
}

#[test]
fn utf16_is_little_endian() {
    assert_eq!(utf16("A№"), [0x41, 0, 0x16, 0x21]);
}
