//! What opening a stream takes and what comes of it, by the forecast and by openings.

use sheet::{Forecast, Refusal, Report, PASSWORD_MAX_LEN, SCRATCH_LEN};

use super::bare;
use super::book::{Book, Kind};
use super::guarded::Guarded;
use super::lent::Lent;
use super::walk::walk;

/// A forecast with guard bytes around the stream. Sees that nothing is written there, and that the
/// call without the wrapper tells the same, its other facts being 0.
#[track_caller]
pub fn forecast(stream: &[u8]) -> Result<Forecast, Refusal> {
    let lent = Guarded::with(stream);
    let answer = sheet::forecast(lent.get());
    let facts = match answer {
        Ok(told) => {
            let [a, b, c, d] = counts(told).map(|count| count as u64);
            (0, [a, b, c, d, 0, 0, 0, 0])
        }
        Err(refusal) => (refusal.number(), facts_of(refusal)),
    };
    assert_eq!(bare::forecast(lent.get()), facts);
    lent.check_untouched();
    answer
}

/// Buffers that are longer than they need be.
fn lent(stream: &[u8], password: &[u8]) -> Lent {
    Lent::new(stream, password, SCRATCH_LEN + 40, stream.len() + 9)
}

/// An opening with buffers that suffice.
#[track_caller]
pub fn open(stream: &[u8], password: &[u8]) -> Result<Report, Refusal> {
    lent(stream, password).open()
}

/// The four counts, in the order of the request.
pub fn counts(told: Forecast) -> [usize; 4] {
    [
        told.output_bytes,
        told.records,
        told.enciphered_body_bytes,
        told.block_keys,
    ]
}

fn facts_of(refusal: Refusal) -> [u64; 8] {
    let [first, second] = refusal.details();
    [first, second, 0, 0, 0, 0, 0, 0]
}

pub fn told(counts: [usize; 4]) -> Result<Forecast, Refusal> {
    let [output_bytes, records, enciphered_body_bytes, block_keys] = counts;
    Ok(Forecast {
        output_bytes,
        records,
        enciphered_body_bytes,
        block_keys,
    })
}

/// A refusal, as the answer of any function that refuses.
pub fn refused<T>(number: u32, details: [u64; 2]) -> Result<T, Refusal> {
    Err(Refusal::from_number(number, details))
}

/// Passwords that are well-formed: the shortest, one that every lock takes, and one of the longest.
fn passwords() -> [String; 3] {
    let longest = "№ 7 🕰 ".repeat(93) + "7";
    assert_eq!(longest.len(), PASSWORD_MAX_LEN);
    ["".into(), "A".into(), longest]
}

/// Sees that a stream is answered so, and that an opening that is lent enough and given another
/// password is refused likewise, or else by 27.
#[track_caller]
pub fn check(stream: &[u8], expected: Result<Forecast, Refusal>) {
    assert_eq!(forecast(stream), expected);
    if let Ok(told) = expected {
        let padding = stream.len()
            - walk(stream)
                .0
                .iter()
                .map(|(_, _, body)| 4 + body.len())
                .sum::<usize>();
        assert!(told.enciphered_body_bytes + 4 * told.records + padding <= stream.len());
    }
    let refusal = expected.err().unwrap_or(Refusal::from_number(27, [0, 0]));
    for password in passwords() {
        let password = password.as_bytes();
        assert_eq!(open(stream, password), Err(refusal));
        let facts = (refusal.number(), facts_of(refusal));
        assert_eq!(bare::open(stream, password), facts);
    }
}

/// Sees that a book is told of so, and that an opening with its password gives the plain stream and
/// reports the same four.
#[track_caller]
pub fn check_book(book: &Book, counts: [usize; 4]) {
    check(&book.locked, told(counts));
    let password = book.password.as_bytes();
    let report = lent(&book.locked, password).open_to(&book.plain);
    let same = [
        report.output_bytes,
        report.records,
        report.enciphered_body_bytes,
        report.block_keys,
    ];
    assert_eq!(same, counts);
    let [lock, bits, sealed] = match book.kind {
        Kind::Xor => [0, 0, 0],
        Kind::Office97 => [1, 40, 0],
        Kind::CryptoApi(bits, sealed) => [2, bits.into(), sealed.into()],
    };
    let [output_bytes, records, enciphered, keys] = counts.map(|count| count as u64);
    let facts = [
        records,
        lock,
        bits,
        sealed,
        output_bytes,
        enciphered,
        keys,
        0,
    ];
    assert_eq!(bare::open(&book.locked, password), (0, facts));
}
