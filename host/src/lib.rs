//! Protected Excel 97-2003 workbook streams: looking at them, their directory of sheets, what opening
//! them takes, opening and sealing.
//!
//! A safe wrapper over `libsheet.a`, whose functions are proved to end, to do nothing undefined and
//! to return what the standards' definitions say. `include/sheet.h` is its C interface; the command
//! `sheet` is made from this crate too.
//!
//! The stream is the Workbook stream of an `.xls` file, taken out of its compound file (`gsf cat
//! book.xls Workbook > book.bin`). One to three zero bytes after its last record are padding: they
//! are not a record, but count for the length of the stream.
//!
//! [`look`] shows whether a stream is locked, [`same_lock`] whether two have the same lock, so that
//! the password of one is the one to try on the other, [`records`] lists its records, [`directory`] gives where its sheets start,
//! [`forecast`] what opening it will take, [`seal`] puts a plain stream under a password, and [`open`]
//! gives the plain stream:
//!
//! ```
//! # fn main() -> Result<(), Box<dyn std::error::Error>> {
//! let stream = std::fs::read("examples/calibres.bin")?;
//! let password = "Hebungswinkel 50°";
//!
//! let (plain, report) = sheet::open_to_vec(&stream, password.as_bytes())?;
//! println!("{} records, lock {}", report.records, report.lock);
//!
//! // The lift angle of the last calibre is in the last RK record (027E), shifted by two bits.
//! let rk = |record: &sheet::Record| record.id == 0x027E;
//! let last = sheet::records(&plain).filter_map(Result::ok).filter(rk).last().unwrap();
//! let number = u32::from_le_bytes(plain[last.body()][6..10].try_into()?);
//! assert_eq!(number >> 2, 50);
//! # Ok(())
//! # }
//! ```
//!
//! # Features
//!
//! - `std`, on by default: `Secret`, and the command `sheet`. It includes `alloc`.
//! - `alloc`: `open_to_vec` and `seal_to_vec`.
//!
//! Without both (`default-features = false`) this crate is `no_std` and uses no heap: the caller
//! provides scratch and output.
//!
//! # Building
//!
//! `build.rs` has `tools/archive sheet` prove and write the archive. Where the Rattle kit is not at
//! hand, `SHEET_ARCHIVE` names a `libsheet.a` that was made elsewhere. The archive is for x86-64.

#![no_std]
#![warn(missing_docs)]

#[cfg(not(target_arch = "x86_64"))]
compile_error!("libsheet.a is for x86-64");

#[cfg(feature = "alloc")]
extern crate alloc;
#[cfg(any(feature = "std", test))]
extern crate std;

mod directory;
mod ffi;
mod forecast;
mod open;
mod records;
mod refusal;
mod scrub;
mod seal;
#[cfg(feature = "std")]
mod secret;
mod verdict;

pub use directory::{directory, Directory};
pub use forecast::{forecast, Forecast};
#[cfg(feature = "alloc")]
pub use open::open_to_vec;
pub use open::{open, Lock, Report, PASSWORD_MAX_LEN, SCRATCH_LEN, STREAM_MAX_LEN};
pub use records::{records, Fault, Record, Records};
pub use refusal::{Refusal, REFUSALS};
#[cfg(feature = "alloc")]
pub use seal::seal_to_vec;
pub use seal::{seal, Choice};
#[cfg(feature = "std")]
pub use secret::Secret;
pub use verdict::{look, same_lock, Facts, Verdict};
