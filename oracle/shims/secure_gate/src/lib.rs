//! Stands in for the crate secure-gate: wrappers around secrets that are read in a closure.
//! Left out: wiping on drop, and comparing in constant time. Neither changes an answer.

/// Bytes whose number is known when the program runs.
pub struct Dynamic<T>(T);

impl Dynamic<Vec<u8>> {
    pub fn new(bytes: Vec<u8>) -> Self {
        Self(bytes)
    }

    /// `len` zero bytes, which `write` then changes.
    pub fn new_with(len: usize, write: impl FnOnce(&mut [u8])) -> Self {
        let mut bytes = vec![0; len];
        write(&mut bytes);
        Self(bytes)
    }
}

/// Bytes whose number is known when the program is built.
pub struct Fixed<T>(T);

impl<const N: usize> Fixed<[u8; N]> {
    /// `N` zero bytes, which `write` then changes.
    pub fn new_with(write: impl FnOnce(&mut [u8; N])) -> Self {
        let mut bytes = [0; N];
        write(&mut bytes);
        Self(bytes)
    }
}

pub trait RevealSecret {
    type Inner;
    fn with_secret<R>(&self, read: impl FnOnce(&Self::Inner) -> R) -> R;
}

impl<T> RevealSecret for Dynamic<T> {
    type Inner = T;
    fn with_secret<R>(&self, read: impl FnOnce(&T) -> R) -> R {
        read(&self.0)
    }
}

impl<T> RevealSecret for Fixed<T> {
    type Inner = T;
    fn with_secret<R>(&self, read: impl FnOnce(&T) -> R) -> R {
        read(&self.0)
    }
}

pub trait ConstantTimeEq {
    fn ct_eq(&self, other: &Self) -> bool;
}

impl ConstantTimeEq for [u8] {
    fn ct_eq(&self, other: &Self) -> bool {
        self == other
    }
}
