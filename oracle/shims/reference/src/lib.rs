//! Stands in for the crate's own lib.rs: names the source's files that are built unchanged, and opens three doors into them: `look`, `Container` and `xor`.
//! Left out: every other file of the crate, and with them its public functions.
#![allow(dead_code, irrefutable_let_patterns, clippy::all)]

mod binary_office;
mod cfb_reader;
mod data_space_map;
mod encrypted_summary;
mod error;
mod excel97;
pub mod file_params;
mod legacy_container;
mod limits;
mod rc4;
mod rc4_cryptoapi;
mod rc4_office97;
mod sensitive;
mod xor_obfuscation;

pub use error::Error;
use legacy_container::LegacyContainer;
use std::io::Cursor;

/// Stands in for the list of hashes: no Excel path names one.
#[derive(Debug, Clone, Copy, PartialEq, Eq)]
pub enum HashAlgorithm {}

impl HashAlgorithm {
    pub fn name(self) -> &'static str {
        match self {}
    }
}

/// The verdict of `probe_excel`.
#[derive(Debug, Clone, Copy, PartialEq, Eq)]
pub struct Verdict {
    pub encrypted: Option<bool>,
    pub version: Option<(u16, u16)>,
    pub key_bits: Option<u32>,
    pub xor_obfuscated: bool,
}

/// `probe_excel` on a container: `probe_in` calls it where there is a Workbook stream.
pub fn look(container: &[u8]) -> Option<Verdict> {
    let verdict = binary_office::probe_in(&mut cfb::CompoundFile::open(Cursor::new(container)).ok()?)?;
    Some(Verdict {
        encrypted: verdict.encrypted,
        version: verdict.version,
        key_bits: verdict.key_bits,
        xor_obfuscated: verdict.xor_obfuscated,
    })
}

/// The key, the verifier and the array of an XOR password: the key is the one that `verify` takes, and the array what zeros are deciphered to, rotated
/// back. None where the source takes no such password.
pub fn xor(password: &str) -> Option<(u16, u16, [u8; 16])> {
    let obfuscator = xor_obfuscation::XorObfuscator::new(password).ok()?;
    let bytes: Vec<u8> = password.chars().map(|c| c as u8).collect();
    let verifier = xor_obfuscation::password_verifier(&bytes);
    let key = (0..=u16::MAX).find(|key| obfuscator.verify(*key, verifier).is_ok())?;
    let mut array = [0; 16];
    obfuscator.decrypt(&mut array, 0);
    Some((key, verifier, array.map(|byte: u8| byte.rotate_left(5))))
}

/// A `LegacyContainer`, to be decrypted and read back.
pub struct Container(LegacyContainer);

impl Container {
    pub fn open(container: &[u8]) -> Result<Self, Error> {
        LegacyContainer::open(container).map(Self)
    }

    /// `excel97::decrypt`.
    pub fn decrypt(&mut self, password: &str) -> Result<(), Error> {
        excel97::decrypt(&mut self.0, password)
    }

    pub fn exists(&self, name: &str) -> bool {
        self.0.exists(name)
    }

    pub fn read(&mut self, name: &'static str) -> Result<Vec<u8>, Error> {
        self.0.read(name)
    }
}
