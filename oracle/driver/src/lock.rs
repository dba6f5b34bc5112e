//! Makes locked books, after document 01 and MS-OFFCRYPTO 2.3.5 to 2.3.7. It shares the hashes and RC4 with the oracle, but no file of the source.

use crate::paper::records;
use crate::random::Random;
use md5::Md5;
use rc4::{KeyInit, Rc4, StreamCipher};
use sha1::{Digest, Sha1};

/// A lock as its FILEPASS states it.
#[derive(Clone)]
pub enum Lock {
    Xor,
    Office97,
    CryptoApi(CryptoApi),
}

#[derive(Clone)]
pub struct CryptoApi {
    pub major: u16,
    pub flags: u32,
    pub alg_id: u32,
    pub alg_id_hash: u32,
    /// The key size as stated: 0 means 40.
    pub key_size: u32,
    /// What is in the header after its 32 fixed bytes.
    pub name: Vec<u8>,
}

impl CryptoApi {
    pub fn plain(key_size: u32, flags: u32) -> Self {
        Self { major: 2, flags, alg_id: 0x6801, alg_id_hash: 0x8004, key_size, name: Vec::new() }
    }
}

/// What a password comes to under a lock.
pub enum Keys {
    Xor([u8; 16]),
    /// The 5 bytes that block keys are hashed from.
    Office97([u8; 5]),
    /// H0, and the key size in bits.
    CryptoApi([u8; 20], u32),
}

fn utf16le(password: &str) -> Vec<u8> {
    password.encode_utf16().flat_map(u16::to_le_bytes).collect()
}

/// The keys of a CryptoAPI lock.
pub fn cryptoapi_keys(password: &str, salt: &[u8], key_size: u32) -> Keys {
    let h0 = Sha1::new().chain_update(salt).chain_update(utf16le(password)).finalize();
    Keys::CryptoApi(h0.into(), if key_size == 0 { 40 } else { key_size })
}

fn office97_keys(password: &str, salt: &[u8]) -> Keys {
    let first = Md5::digest(utf16le(password));
    let mut second = Md5::new();
    for _ in 0..16 {
        second.update(&first[..5]);
        second.update(salt);
    }
    Keys::Office97(second.finalize()[..5].try_into().unwrap())
}

impl Keys {
    /// The keystream of a block, from its start. The XOR lock has none.
    pub fn keystream(&self, block: u32) -> Rc4 {
        let key: Vec<u8> = match self {
            Keys::Xor(_) => unreachable!(),
            Keys::Office97(five) => Md5::new().chain_update(five).chain_update(block.to_le_bytes()).finalize().to_vec(),
            Keys::CryptoApi(h0, bits) => {
                let digest = Sha1::new().chain_update(h0).chain_update(block.to_le_bytes()).finalize();
                let mut key = digest[..*bits as usize / 8].to_vec();
                if *bits == 40 {
                    key.resize(16, 0);
                }
                key
            }
        };
        Rc4::new_from_slice(&key).unwrap()
    }

    /// Enciphers in place what is enciphered of a stream: all but headers and clear parts.
    pub fn seal(&self, stream: &mut [u8]) {
        let plain = stream.to_vec();
        match self {
            Keys::Xor(array) => {
                for record in records(&plain) {
                    let clear = record.clear();
                    for (k, byte) in stream[record.start + clear..record.end].iter_mut().enumerate() {
                        *byte = byte.rotate_left(5) ^ array[(record.end + clear + k) % 16];
                    }
                }
            }
            _ => {
                for (block, chunk) in stream.chunks_mut(1024).enumerate() {
                    self.keystream(block as u32).apply_keystream(chunk);
                }
                for record in records(&plain) {
                    let clear = record.at..record.start + record.clear();
                    stream[clear.clone()].copy_from_slice(&plain[clear]);
                }
            }
        }
    }
}

/// The FILEPASS body of a lock for a password, with random salt and verifier, and the password's keys.
pub fn filepass(lock: &Lock, password: &str, random: &mut Random) -> (Vec<u8>, Keys) {
    let (salt, verifier) = (random.array::<16>(), random.array::<16>());
    match lock {
        Lock::Xor => {
            let bytes: Vec<u8> = password.chars().map(|c| c as u32 as u8).take(15).collect();
            let (key, check) = (xor_key(&bytes), xor_verifier(&bytes));
            ([[0, 0], key.to_le_bytes(), check.to_le_bytes()].concat(), Keys::Xor(xor_array(&bytes, key)))
        }
        Lock::Office97 => {
            let keys = office97_keys(password, &salt);
            let mut sealed = [&verifier[..], &Md5::digest(verifier)[..]].concat();
            keys.keystream(0).apply_keystream(&mut sealed);
            ([&[1, 0, 1, 0, 1, 0][..], &salt, &sealed].concat(), keys)
        }
        Lock::CryptoApi(api) => {
            let keys = cryptoapi_keys(password, &salt, api.key_size);
            let mut sealed = [&verifier[..], &Sha1::digest(verifier)[..]].concat();
            keys.keystream(0).apply_keystream(&mut sealed);
            let mut body = Vec::new();
            for half in [1, api.major, 2] {
                body.extend(half.to_le_bytes());
            }
            for word in [api.flags, 32 + api.name.len() as u32, api.flags, 0, api.alg_id, api.alg_id_hash, api.key_size, 1, 0, 0] {
                body.extend(word.to_le_bytes());
            }
            body.extend(&api.name);
            body.extend(16u32.to_le_bytes());
            body.extend(salt);
            body.extend(&sealed[..16]);
            body.extend(20u32.to_le_bytes());
            body.extend(&sealed[16..]);
            (body, keys)
        }
    }
}

pub fn put_record(stream: &mut Vec<u8>, id: u16, body: &[u8]) {
    stream.extend(id.to_le_bytes());
    stream.extend((body.len() as u16).to_le_bytes());
    stream.extend(body);
}

/// The tables of MS-OFFCRYPTO 2.3.7.2. Of each row of seven of its matrix, the first: the others follow by doubling.
const PAD: [u8; 15] = [0xBB, 0xFF, 0xFF, 0xBA, 0xFF, 0xFF, 0xB9, 0x80, 0x00, 0xBE, 0x0F, 0x00, 0xBF, 0x0F, 0x00];
#[rustfmt::skip]
const INITIAL: [u16; 15] = [0xE1F0, 0x1D0F, 0xCC9C, 0x84C0, 0x110C, 0x0E10, 0xF1CE, 0x313E, 0x1872, 0xE139, 0xD40F, 0x84F9, 0x280C, 0xA96A, 0x4EC3];
#[rustfmt::skip]
const ROWS: [u16; 15] = [0xAEFC, 0x7B61, 0x4563, 0x0375, 0xD849, 0x6F45, 0xEB23, 0x47D3, 0xB861, 0x45A0, 0xAA51, 0x76B4, 0x3730, 0x3331, 0x1021];

fn xor_key(password: &[u8]) -> u16 {
    let mut key = password.len().checked_sub(1).map_or(0, |k| INITIAL[k]);
    for (byte, row) in password.iter().rev().zip(ROWS.iter().rev()) {
        let mut entry = *row;
        for bit in 0..7 {
            if byte >> bit & 1 != 0 {
                key ^= entry;
            }
            entry = entry << 1 ^ if entry & 0x8000 != 0 { 0x1021 } else { 0 };
        }
    }
    key
}

fn xor_verifier(password: &[u8]) -> u16 {
    let mut verifier = 0u16;
    for byte in password.iter().rev().copied().chain([password.len() as u8]) {
        verifier = (verifier << 1 & 0x7FFF | verifier >> 14 & 1) ^ u16::from(byte);
    }
    verifier ^ 0xCE4B
}

fn xor_array(password: &[u8], key: u16) -> [u8; 16] {
    let mut array = [0; 16];
    for (k, (entry, byte)) in array.iter_mut().zip(password.iter().chain(&PAD)).enumerate() {
        *entry = (byte ^ key.to_le_bytes()[k % 2]).rotate_right(1);
    }
    array
}
