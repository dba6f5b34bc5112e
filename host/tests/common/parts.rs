//! Streams with a CryptoAPI lock, made from their parts, so that each question about a stream can be
//! answered by no.

use super::book::{joined, BOF, CLEAR, FILEPASS, ROW};

/// The parts of a stream that the questions are asked of: a first record, one before the lock, the
/// lock, and bytes behind the last record.
#[derive(Clone, Copy)]
pub struct Parts {
    pub first: u16,
    pub before: u16,
    pub filepass: u16,
    pub lock: Lock,
    pub behind: &'static [u8],
}

/// The fields of a CryptoAPI lock, and how many bytes of the FILEPASS body are left at most.
#[derive(Clone, Copy)]
pub struct Lock {
    pub kind: u16,
    pub major: u16,
    pub minor: u16,
    pub size: u32,
    pub flags: u32,
    pub cipher: u32,
    pub hash: u32,
    pub bits: u32,
    pub salt_size: u32,
    pub hash_size: u32,
    pub len: usize,
}

/// Parts that nothing is wrong with.
pub const PARTS: Parts = Parts {
    first: BOF,
    before: CLEAR,
    filepass: FILEPASS,
    lock: LOCK,
    behind: &[],
};

/// A lock whose fields are all in order, though no password passes.
pub const LOCK: Lock = Lock {
    kind: 1,
    major: 4,
    minor: 2,
    size: 32,
    flags: 0x0C,
    cipher: 0x6801,
    hash: 0x8004,
    bits: 128,
    salt_size: 16,
    hash_size: 20,
    len: usize::MAX,
};

impl Parts {
    pub fn stream(&self) -> Vec<u8> {
        let records = joined(&[
            (self.first, vec![]),
            (self.before, vec![]),
            (self.filepass, self.lock.body()),
            (ROW, vec![1, 2, 3]),
        ]);
        [&records[..], self.behind].concat()
    }

    /// Makes the question with a number be answered by no.
    pub fn spoil(&mut self, number: u32) {
        let lock = &mut self.lock;
        match number {
            6 => self.behind = &[0, 0, 1],
            7 => self.first = CLEAR,
            8 => self.filepass = CLEAR,
            9 => self.before = 0x0042,
            10 => lock.len = lock.len.min(1),
            11 => lock.kind = 2,
            12 => lock.len = lock.len.min(5),
            13 => lock.major = 5,
            15 => lock.len = lock.len.min(13),
            16 => lock.size = 31,
            17 => lock.len = lock.len.min(45),
            18 => lock.flags |= 0x10,
            19 => lock.flags |= 0x20,
            20 => lock.flags &= !0x04,
            21 => lock.cipher = 0x6802,
            22 => lock.hash = 0x8003,
            23 => lock.bits = 44,
            24 => lock.len = lock.len.min(105),
            25 => lock.salt_size = 17,
            26 => lock.hash_size = 16,
            _ => panic!("no question {number}"),
        }
    }

    /// The details of that question, if none with a lower number is answered by no.
    pub fn details(&self, number: u32) -> [u64; 2] {
        match number {
            6 => [self.stream().len() as u64 - 3, 0],
            7 | 8 => [0, 0],
            9 => [0x0042, 0],
            10 => [1, 2],
            11 => [2, 0],
            12 => [3, 4],
            13 => [5, 2],
            15 => [11, 12],
            16 => [31, 0],
            17 => [32, 43],
            18..=20 => [self.lock.flags.into(), 0],
            21 => [0x6802, 0],
            22 => [0x8003, 0],
            23 => [44, 0],
            24 => [59, 60],
            25 => [17, 0],
            26 => [16, 0],
            _ => panic!("no question {number}"),
        }
    }
}

impl Lock {
    /// The FILEPASS body. A header whose size is not allowed has 32 bytes.
    pub fn body(&self) -> Vec<u8> {
        let head = [self.kind, self.major, self.minor].map(u16::to_le_bytes);
        let fields = [0x0C, self.size, self.flags, 0, self.cipher, self.hash];
        let fields = fields.map(u32::to_le_bytes);
        let ends = [self.bits, 1, 0, 0].map(u32::to_le_bytes);
        let name = match self.size {
            32..=1024 => vec![0; self.size as usize - 32],
            _ => vec![],
        };
        let mut body = [
            &head.concat()[..],
            &fields.concat(),
            &ends.concat(),
            &name,
            &self.salt_size.to_le_bytes(),
            &[0x11; 32],
            &self.hash_size.to_le_bytes(),
            &[0x22; 20],
        ]
        .concat();
        body.truncate(self.len);
        body
    }

    /// A stream with this lock and nothing else that is wrong.
    pub fn stream(self) -> Vec<u8> {
        let parts = Parts {
            lock: self,
            ..PARTS
        };
        parts.stream()
    }
}

/// The questions that can be asked of a stream with a CryptoAPI lock, but for its length.
pub const QUESTIONS: [u32; 20] = [
    6, 7, 8, 9, 10, 11, 12, 13, 15, 16, 17, 18, 19, 20, 21, 22, 23, 24, 25, 26,
];
