//! Locked workbook streams made from plain records, by document 01.

use sheet::Lock;

use super::digest::{md5, sha1};
use super::rc4::Rc4;
use super::{utf16, xor};

pub const BOF: u16 = 0x0809;
pub const FILEPASS: u16 = 0x002F;
pub const BOUND_SHEET: u16 = 0x0085;
pub const EOF: u16 = 0x000A;
/// A record whose body is clear, and one whose body is enciphered whole.
pub const CLEAR: u16 = 0x00E1;
pub const ROW: u16 = 0x0204;
pub const SEVEN: [u16; 7] = [BOF, FILEPASS, CLEAR, 0x0138, 0x0194, 0x0195, 0x0196];

pub const SALT: [u8; 16] = *b"0123456789:;<=>?";
pub const VERIFIER: [u8; 16] = *b"\xC0\xC1\xC2\xC3\xC4\xC5\xC6\xC7\xC8\xC9\xCA\xCB\xCC\xCD\xCE\xCF";

/// The length of a keystream's block.
pub const BLOCK: usize = 1024;

#[derive(Clone, Copy, Debug, PartialEq)]
pub enum Kind {
    Xor,
    Office97,
    /// With a key size in bits, and whether the summary is sealed.
    CryptoApi(u32, bool),
}

/// One of each lock.
pub const KINDS: [Kind; 4] = [
    Kind::Xor,
    Kind::Office97,
    Kind::CryptoApi(128, true),
    Kind::CryptoApi(40, false),
];

impl Kind {
    /// A password that the lock takes: long and odd, as far as it admits.
    pub fn password(self) -> &'static str {
        match self {
            Kind::Xor => "Unruh & 28800/h",
            _ => "Ankerhemmung, 28 800 Halbschwingungen; Spirale № 7 — «Glashütte» 🕰",
        }
    }

    /// The password's digest: H0 of both RC4 locks.
    pub fn digest(self, password: &str) -> Vec<u8> {
        self.salted_digest(&SALT, password)
    }

    fn salted_digest(self, salt: &[u8; 16], password: &str) -> Vec<u8> {
        let text = utf16(password);
        match self {
            Kind::Xor => Vec::new(),
            Kind::Office97 => {
                let first = &md5(&text)[..5];
                md5(&[first, salt].concat().repeat(16))[..5].to_vec()
            }
            Kind::CryptoApi(..) => sha1(&[&salt[..], &text].concat()).to_vec(),
        }
    }

    /// The key of a block, of both RC4 locks.
    pub fn block_key(self, password: &str, block: u32) -> Vec<u8> {
        self.salted_block_key(&SALT, password, block)
    }

    /// The same under another salt.
    pub fn salted_block_key(self, salt: &[u8; 16], password: &str, block: u32) -> Vec<u8> {
        let digest = self.salted_digest(salt, password);
        let message = [digest, block.to_le_bytes().to_vec()].concat();
        match self {
            Kind::Xor => Vec::new(),
            Kind::Office97 => md5(&message).to_vec(),
            Kind::CryptoApi(bits, _) => {
                let mut key = sha1(&message)[..bits as usize / 8].to_vec();
                if bits == 40 {
                    key.resize(16, 0);
                }
                key
            }
        }
    }

    /// What a look tells of the lock if so many bytes of the FILEPASS body are there.
    pub fn facts(self, body: usize) -> sheet::Facts {
        sheet::Facts {
            lock: match self {
                Kind::Xor if body >= 2 => Some(Lock::Xor),
                Kind::Office97 if body >= 6 => Some(Lock::Office97),
                Kind::CryptoApi(..) if body >= 6 => Some(Lock::CryptoApi),
                _ => None,
            },
            version: match self {
                Kind::Office97 if body >= 6 => Some((1, 1)),
                Kind::CryptoApi(..) if body >= 6 => Some((4, 2)),
                _ => None,
            },
            key_bits: match self {
                Kind::CryptoApi(bits, _) if body >= 34 => Some(bits),
                _ => None,
            },
        }
    }

    /// The number and the details of the refusal of a FILEPASS body of which only so many bytes are
    /// there.
    pub fn cut_at(self, len: usize) -> (u32, [u64; 2]) {
        let have = |before: usize| (len - before) as u64;
        match self {
            _ if len < 2 => (10, [have(0), 2]),
            Kind::Xor => (10, [have(2), 4]),
            _ if len < 6 => (12, [have(2), 4]),
            Kind::Office97 => (14, [have(2), 52]),
            _ if len < 14 => (15, [have(2), 12]),
            _ if len < 14 + 48 => (17, [48, have(2)]),
            _ => (24, [have(14 + 48), 60]),
        }
    }

    /// The body of FILEPASS.
    pub fn filepass(self, password: &str) -> Vec<u8> {
        let bits = match self {
            Kind::Xor => {
                let bytes = password.as_bytes();
                return [0, xor::key(bytes), xor::verifier(bytes)]
                    .map(u16::to_le_bytes)
                    .concat();
            }
            Kind::Office97 => 40,
            Kind::CryptoApi(bits, _) => bits,
        };
        let hash = match self {
            Kind::Office97 => md5(&VERIFIER).to_vec(),
            _ => sha1(&VERIFIER).to_vec(),
        };
        let check = Rc4::new(&self.block_key(password, 0)).apply(&[&VERIFIER[..], &hash].concat());
        if self == Kind::Office97 {
            let head = [1_u16, 1, 1].map(u16::to_le_bytes).concat();
            return [&head, &SALT[..], &check].concat();
        }
        let flags: u32 = if self == Kind::CryptoApi(bits, true) {
            0x04
        } else {
            0x0C
        };
        let name = utf16("Provider");
        let head = [1_u16, 4, 2].map(u16::to_le_bytes).concat();
        let size = 32 + name.len() as u32;
        let fields = [flags, size, flags, 0, 0x6801, 0x8004, bits, 1, 0, 0];
        let salt_size = 16_u32.to_le_bytes();
        let hash_size = 20_u32.to_le_bytes();
        [
            &head,
            &fields.map(u32::to_le_bytes).concat(),
            &name,
            &salt_size[..],
            &SALT,
            &check[..16],
            &hash_size,
            &check[16..],
        ]
        .concat()
    }
}

/// A locked stream with its plain one, the offsets of its headers, and how many bytes of each body
/// were enciphered.
pub struct Book {
    pub kind: Kind,
    pub password: &'static str,
    pub locked: Vec<u8>,
    pub plain: Vec<u8>,
    pub headers: Vec<usize>,
    pub enciphered: Vec<usize>,
}

impl Book {
    /// Locks records, of which the first FILEPASS gets its body here.
    pub fn new(kind: Kind, password: &'static str, records: &[(u16, Vec<u8>)]) -> Book {
        Book::with_body(kind, password, kind.filepass(password), records)
    }

    /// The same with a FILEPASS body that was made for the password, and for the salt of the others.
    pub fn with_body(
        kind: Kind,
        password: &'static str,
        body: Vec<u8>,
        records: &[(u16, Vec<u8>)],
    ) -> Book {
        let mut records = records.to_vec();
        let first = records
            .iter()
            .position(|(id, _)| *id == FILEPASS)
            .expect("a FILEPASS record");
        records[first].1 = body;
        let (mut joined, mut plain, mut headers) = (Vec::new(), Vec::new(), Vec::new());
        for (k, (id, body)) in records.iter().enumerate() {
            headers.push(joined.len());
            joined.extend(header(*id, body.len()));
            joined.extend(body);
            plain.extend(header(if k == first { 0 } else { *id }, body.len()));
            plain.extend(if k == first {
                vec![0; body.len()]
            } else {
                body.clone()
            });
        }
        let mut locked = joined.clone();
        let streamed: Vec<u8> = match kind {
            Kind::Xor => Vec::new(),
            _ => joined
                .chunks(BLOCK)
                .zip(0..)
                .flat_map(|(part, block)| Rc4::new(&kind.block_key(password, block)).apply(part))
                .collect(),
        };
        let mut enciphered = Vec::new();
        for ((id, body), at) in records.iter().zip(&headers) {
            let (start, end) = (at + 4, at + 4 + body.len());
            let clear = clear_len(*id, body.len());
            enciphered.push(body.len() - clear);
            if kind == Kind::Xor {
                let sealed = xor::seal(body, clear, end, password.as_bytes());
                locked[start..end].copy_from_slice(&sealed);
            } else {
                locked[start + clear..end].copy_from_slice(&streamed[start + clear..end]);
            }
        }
        Book {
            kind,
            password,
            locked,
            plain,
            headers,
            enciphered,
        }
    }

    /// A book of BOF, the lock and a row of three bytes.
    pub fn least(kind: Kind, password: &'static str) -> Book {
        let records = [(BOF, vec![]), (FILEPASS, vec![]), (ROW, vec![1, 2, 3])];
        Book::new(kind, password, &records)
    }

    /// A book of some hundred bytes, with every kind of record that is treated apart.
    pub fn small(kind: Kind) -> Book {
        Book::of(kind, kind.password(), 8, 20)
    }

    /// A book of several blocks.
    pub fn long(kind: Kind) -> Book {
        Book::long_under(kind, kind.password())
    }

    /// The same under another password.
    pub fn long_under(kind: Kind, password: &'static str) -> Book {
        Book::of(kind, password, 40, 200)
    }

    fn of(kind: Kind, password: &'static str, rows: usize, longest: usize) -> Book {
        let mut records = vec![
            (BOF, vec![0, 6, 5, 0]),
            (CLEAR, vec![0xB0, 0x04]),
            (FILEPASS, Vec::new()),
            (BOUND_SHEET, b"\0\0\0\0\0\0\x05\0Werke".to_vec()),
            (BOUND_SHEET, b"\0\0".to_vec()),
            (EOF, Vec::new()),
            (BOF, vec![0, 6, 16, 0]),
            // A later FILEPASS is copied whole.
            (FILEPASS, vec![7; 9]),
        ];
        for row in 0..rows {
            let body = (0..row * 31 % longest).map(|k| (row * 7 + k * 3) as u8);
            records.push((ROW, body.collect()));
        }
        records.push((EOF, Vec::new()));
        Book::new(kind, password, &records)
    }

    /// A book of sheets with rows of so many bytes each and a chart, and the starts that its entries
    /// name: the entry at place k is that of sheet `order(k)`.
    pub fn of_sheets(
        kind: Kind,
        rows: &[usize],
        order: impl Fn(usize) -> usize,
    ) -> (Book, Vec<usize>) {
        let records = |starts: &[usize]| {
            let mut records = vec![(BOF, vec![0, 6, 5, 0]), (FILEPASS, Vec::new())];
            records.extend(starts.iter().map(|start| (BOUND_SHEET, entry(*start))));
            records.push((EOF, Vec::new()));
            for bytes in rows {
                records.push((BOF, vec![0, 6, 16, 0]));
                records.extend(filling(*bytes));
                records.push((BOF, vec![0, 6, 32, 0]));
                records.push((EOF, Vec::new()));
                records.push((EOF, Vec::new()));
            }
            records
        };
        // Whatever an entry names, it has the same length.
        let all = records(&vec![0; rows.len()]);
        let book = Book::new(kind, kind.password(), &all);
        let sheets: Vec<usize> = all
            .iter()
            .zip(&book.headers)
            .filter(|((id, body), _)| *id == BOF && body[2] == 16)
            .map(|(_, at)| *at)
            .collect();
        let starts: Vec<usize> = (0..rows.len()).map(|place| sheets[order(place)]).collect();
        (Book::new(kind, kind.password(), &records(&starts)), starts)
    }

    /// The same with zero bytes behind its last record, of which there are fewer than four: padding.
    pub fn padded(mut self, zeros: usize) -> Book {
        for stream in [&mut self.locked, &mut self.plain] {
            stream.resize(stream.len() + zeros, 0);
        }
        self
    }

    /// The first FILEPASS: the offsets of its header and of its body's end.
    pub fn filepass(&self) -> (usize, usize) {
        (self.headers[2], self.headers[3])
    }

    /// The offset of the record that a cut at `len` leaves cut off, if it does not stand between
    /// two records.
    pub fn cut_record(&self, len: usize) -> Option<usize> {
        let last = self.headers.iter().rev().find(|at| **at < len)?;
        let whole = self.headers.iter().find(|at| **at > *last);
        (len != *whole.unwrap_or(&self.locked.len())).then_some(*last)
    }

    /// The refusal of the first `len` bytes, if they are refused whatever the password.
    pub fn refusal_in(&self, len: usize) -> Option<sheet::Refusal> {
        let (_, lock_end) = self.filepass();
        match self.cut_record(len) {
            Some(at) => Some(sheet::Refusal::from_number(6, [at as u64, 0])),
            None if len == 0 => Some(sheet::Refusal::from_number(7, [0, 0])),
            None if len < lock_end => Some(sheet::Refusal::from_number(8, [0, 0])),
            None => None,
        }
    }

    /// How many records there are in the first `len` bytes.
    pub fn records_in(&self, len: usize) -> usize {
        self.headers.iter().filter(|at| **at < len).count()
    }

    /// What opening the first `len` bytes takes, where they end behind a record or in padding.
    pub fn forecast_in(&self, len: usize) -> sheet::Forecast {
        let records = self.records_in(len);
        sheet::Forecast {
            output_bytes: len,
            records,
            enciphered_body_bytes: self.enciphered[..records].iter().sum(),
            // The check's, and one for each part that was enciphered.
            block_keys: match self.kind {
                Kind::Xor => 0,
                _ => 1 + self.locked[..len].chunks(BLOCK).count(),
            },
        }
    }

    /// What is told when the first `len` bytes are opened, where they end behind a record or in
    /// padding.
    pub fn report_in(&self, len: usize) -> sheet::Report {
        let (lock, key_bits, summary_sealed) = match self.kind {
            Kind::Xor => (Lock::Xor, None, false),
            Kind::Office97 => (Lock::Office97, Some(40), false),
            Kind::CryptoApi(bits, sealed) => (Lock::CryptoApi, Some(bits), sealed),
        };
        let counts = self.forecast_in(len);
        sheet::Report {
            records: counts.records,
            lock,
            key_bits,
            summary_sealed,
            output_bytes: counts.output_bytes,
            enciphered_body_bytes: counts.enciphered_body_bytes,
            block_keys: counts.block_keys,
        }
    }
}

/// A book of BOF, the lock, and these records.
pub fn book(kind: Kind, behind: &[(u16, Vec<u8>)]) -> Book {
    let front = [(BOF, vec![0, 6, 5, 0]), (FILEPASS, vec![])];
    Book::new(kind, kind.password(), &[&front, behind].concat())
}

/// BOF and records whose bodies are clear, of so many bytes in all: 4, or 8 or more.
pub fn clear_front(len: usize) -> Vec<(u16, Vec<u8>)> {
    let mut records = vec![(BOF, Vec::new())];
    let mut left = len - 4;
    while left > 0 {
        let record = if left <= 60_000 { left } else { 50_000 };
        records.push((CLEAR, vec![0x2F; record - 4]));
        left -= record;
    }
    records
}

/// The bytes of these books before the other records: two headers, BOF's body, and the lock.
pub fn front(kind: Kind) -> usize {
    match kind {
        Kind::Xor => 4 + 4 + 4 + 6,
        Kind::Office97 => 4 + 4 + 4 + 54,
        Kind::CryptoApi(..) => 4 + 4 + 4 + 122,
    }
}

/// The block keys that are derived for these books, if so many are under RC4.
pub fn keys(kind: Kind, rc4: usize) -> usize {
    match kind {
        Kind::Xor => 0,
        _ => rc4,
    }
}

/// The bytes of rows in each of so many sheets, of which a book of this length is made.
pub fn rows_in(kind: Kind, sheets: usize, len: usize) -> Vec<usize> {
    let none = Book::of_sheets(kind, &vec![0; sheets], |place| place).0;
    let left = len - none.locked.len();
    let mut rows = vec![left / sheets; sheets];
    rows[sheets - 1] += left % sheets;
    rows
}

pub fn header(id: u16, len: usize) -> Vec<u8> {
    [id, u16::try_from(len).unwrap()]
        .map(u16::to_le_bytes)
        .concat()
}

/// The stream of some records, not locked.
pub fn joined(records: &[(u16, Vec<u8>)]) -> Vec<u8> {
    records
        .iter()
        .flat_map(|(id, body)| [header(*id, body.len()), body.clone()].concat())
        .collect()
}

/// The body of a BoundSheet8 record: a start, and a name.
pub fn entry(start: usize) -> Vec<u8> {
    [
        &u32::try_from(start).unwrap().to_le_bytes()[..],
        b"\0\0\x05\0Werke",
    ]
    .concat()
}

/// Rows of so many bytes in all, none or more than three.
fn filling(mut bytes: usize) -> Vec<(u16, Vec<u8>)> {
    let mut rows = Vec::new();
    while bytes > 0 {
        let len = if bytes < 40 { bytes } else { 20 };
        rows.push((ROW, vec![rows.len() as u8; len - 4]));
        bytes -= len;
    }
    rows
}

pub fn clear_len(id: u16, len: usize) -> usize {
    match id {
        _ if SEVEN.contains(&id) => len,
        BOUND_SHEET => len.min(4),
        _ => 0,
    }
}
