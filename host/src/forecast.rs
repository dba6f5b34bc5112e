//! Forecast: what opening a workbook will take.

use crate::ffi;
use crate::refusal::Refusal;

/// What opening a stream will take.
#[derive(Clone, Copy, Debug, PartialEq, Eq)]
pub struct Forecast {
    /// How many bytes of output are written: the stream's length.
    pub output_bytes: usize,
    /// How many records the stream has.
    pub records: usize,
    /// How many bytes of their bodies are deciphered: the lengths of the bodies less their clear
    /// parts. With four for each record, they never pass the stream's length.
    pub enciphered_body_bytes: usize,
    /// How many block keys are derived: none under XOR; under RC4 one for the check of the password,
    /// and one for each started 1,024 bytes of the stream.
    pub block_keys: usize,
}

/// Gives what opening a stream will take, without a password.
///
/// The four numbers are those of the [`Report`](crate::Report) that [`open`](crate::open()) gives
/// with the right password. Padding, one to three zero bytes after the last record, counts for the
/// output bytes and the block keys alone.
///
/// ```
/// # fn main() -> Result<(), Box<dyn std::error::Error>> {
/// let stream = std::fs::read("examples/calibres.bin")?;
/// let forecast = sheet::forecast(&stream)?;
/// assert_eq!(forecast.output_bytes, 3435);
/// assert_eq!(forecast.records, 186);
/// assert_eq!(forecast.enciphered_body_bytes, 2533);
/// // One for the check, and four for the blocks, of which the last is not full.
/// assert_eq!(forecast.block_keys, 5);
///
/// // Cut in the middle of its last record, an EOF of four bytes.
/// let refusal = sheet::forecast(&stream[..3433]).unwrap_err();
/// assert_eq!((refusal.number(), refusal.details()), (6, [3431, 0]));
/// # Ok(())
/// # }
/// ```
///
/// # Errors
///
/// A [`Refusal`], for the first of these that applies: 4 and 6 to 26. It is the one that
/// [`open`](crate::open()) gives, whatever the password is, if that is well-formed and not too long
/// and the buffers suffice.
pub fn forecast(stream: &[u8]) -> Result<Forecast, Refusal> {
    let mut facts = [0; 8];
    // SAFETY: a slice's pointer points to `len` bytes; `facts` is a local of eight numbers, which
    // overlaps nothing.
    let number = unsafe { ffi::sheet_forecast(stream.as_ptr(), stream.len(), &mut facts) };
    let [first, second, enciphered, keys, ..] = facts;
    if number != 0 {
        return Err(Refusal::from_number(number, [first, second]));
    }
    // None is more than the stream has bytes.
    Ok(Forecast {
        output_bytes: first as usize,
        records: second as usize,
        enciphered_body_bytes: enciphered as usize,
        block_keys: keys as usize,
    })
}
