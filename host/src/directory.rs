//! Directory: how many sheets a workbook has, and where they start.

use crate::ffi;
use crate::refusal::Refusal;

/// What the directory of a workbook says of a place.
#[derive(Clone, Copy, Debug, PartialEq, Eq)]
pub struct Directory {
    /// How many sheets the workbook has, whatever the place: its BoundSheet8 records.
    pub sheets: usize,
    /// Where the sheet at the place starts: the offset of its BOF record in the stream. There is
    /// none from the number of sheets on.
    pub start: Option<usize>,
}

/// Gives how many sheets a workbook has, and where the one at a place starts.
///
/// Places count from 0, in the order of the BoundSheet8 records. A start is not enciphered in a
/// locked workbook either, and the stream that [`open`](crate::open()) gives has the same directory:
/// a sheet can be picked before a password is typed.
///
/// ```
/// # fn main() -> Result<(), Box<dyn std::error::Error>> {
/// // A locked book with one sheet.
/// let stream = std::fs::read("examples/calibres.bin")?;
/// let first = sheet::directory(&stream, 0)?;
/// assert_eq!((first.sheets, first.start), (1, Some(170)));
/// let second = sheet::directory(&stream, 1)?;
/// assert_eq!((second.sheets, second.start), (1, None));
///
/// // Without its last record, an EOF, the book leaves a BOF open.
/// let refusal = sheet::directory(&stream[..3431], 0).unwrap_err();
/// assert_eq!((refusal.number(), refusal.details()), (29, [3431, 0]));
/// # Ok(())
/// # }
/// ```
///
/// Every call reads the whole stream: to list all sheets, call once and take the starts from the
/// BoundSheet8 records that [`records`](crate::records()) finds. The time is linear in the stream
/// where the starts rise from one record to the next; a start that is lower than the one before
/// sends the search back to the front. A stream that is made to be slow takes up to a minute with
/// a mebibyte, and would take more than a year with a gibibyte: limit the length of streams that
/// you don't trust.
///
/// # Errors
///
/// A [`Refusal`], for the first of these that applies: 4, 6, 7, 28 and 29.
pub fn directory(stream: &[u8], place: usize) -> Result<Directory, Refusal> {
    let mut facts = [0; 8];
    // SAFETY: a slice's pointer points to `len` bytes; `facts` is a local of eight numbers, which
    // overlaps nothing. Any place may be asked for.
    let number = unsafe { ffi::sheet_directory(stream.as_ptr(), stream.len(), place, &mut facts) };
    let [first, second, start, ..] = facts;
    if number != 0 {
        return Err(Refusal::from_number(number, [first, second]));
    }
    Ok(Directory {
        // No more than the stream has bytes.
        sheets: first as usize,
        // Read from four bytes.
        start: (second == 1).then_some(start as usize),
    })
}
