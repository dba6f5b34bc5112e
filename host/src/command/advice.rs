//! What is said beside a refusal or a verdict, from what the stream itself shows.

use sheet::{Record, Refusal};

use super::input::LOOK_LEN;

/// The ids of FILEPASS and WriteProtect records.
const FILEPASS: u16 = 0x002F;
const WRITE_PROTECT: u16 = 0x0086;

/// The ids of the records that are never enciphered. A look goes on past these alone.
const NEVER_ENCIPHERED: [u16; 7] = [0x0809, FILEPASS, 0x00E1, 0x0138, 0x0194, 0x0195, 0x0196];

/// The version in the body of a BOF record of Excel 5 and 95, and the length of their FILEPASS body: a
/// key and a verifier of two bytes each, without a type before them.
const BIFF5: [u8; 2] = [0x00, 0x05];
const BIFF5_FILEPASS_LEN: usize = 4;

/// What passwords XOR has.
pub const XOR_PASSWORDS: &str = "under XOR a password has 1 to 15 characters, none beyond U+00FF";

/// What is said where the locks of two streams are the same as far as they are compared, and both go
/// on after that.
pub const LOCKS_GO_ON: &str =
    "by their headers both FILEPASS records go on after the first mebibyte, which is all that is \
     compared: their locks may differ there, and so may their passwords";

/// What is said beside a refusal to open a stream.
pub fn of_refusal(refusal: &Refusal, stream: &[u8]) -> Vec<String> {
    let mut lines = Vec::new();
    if *refusal == Refusal::WrongPassword && is_xor(stream) {
        lines.push(XOR_PASSWORDS.to_string());
    }
    if let Refusal::FilepassTruncated { .. }
    | Refusal::FilepassEncryptionType { .. }
    | Refusal::EncryptionVersionInfoTruncated { .. } = refusal
    {
        if is_like_biff5(stream) {
            lines.push(
                "the book may have been saved by Excel 5 or 95, whose lock is written in another way: \
                 open it in a spreadsheet program and save it as an Excel 97-2003 workbook"
                    .to_string(),
            );
        }
    }
    lines
}

/// Whether a stream that only lacks its password is locked by XOR: the only lock without keys.
fn is_xor(stream: &[u8]) -> bool {
    sheet::forecast(stream).is_ok_and(|forecast| forecast.block_keys == 0)
}

/// Whether a stream looks like one of Excel 5 or 95.
fn is_like_biff5(stream: &[u8]) -> bool {
    let mut records = sheet::records(stream).filter_map(Result::ok);
    let Some(bof) = records.next() else {
        return false;
    };
    let filepass = records.find(|record| record.id == FILEPASS);
    stream[bof.body()].starts_with(&BIFF5)
        || filepass.is_some_and(|record| record.len == BIFF5_FILEPASS_LEN)
}

/// Whether the body of a stream's first FILEPASS record goes on after the bytes that a look reads.
pub fn lock_goes_on(stream: &[u8]) -> bool {
    let end = sheet::records(stream).find_map(|step| match step {
        Ok(record) => (record.id == FILEPASS).then(|| record.body().end),
        Err(fault) => filepass_end(stream, fault.at),
    });
    stream.len() >= LOOK_LEN && end.is_some_and(|end| end > LOOK_LEN)
}

/// Where the body of the FILEPASS record at an offset ends, by the length that its header states, if
/// the header is there and is that of one.
fn filepass_end(stream: &[u8], at: usize) -> Option<usize> {
    let header: &[u8; 4] = stream[at..].first_chunk()?;
    let [id, len] = [[header[0], header[1]], [header[2], header[3]]].map(u16::from_le_bytes);
    (id == FILEPASS).then_some(at + header.len() + usize::from(len))
}

/// What a look says no to a stream for, and the FILEPASS record that comes after it, within the bytes
/// that are given.
pub struct Hidden {
    first: Record,
    filepass: usize,
}

impl Hidden {
    /// Looks for a FILEPASS record after the first record that can be enciphered.
    pub fn in_stream(stream: &[u8]) -> Option<Hidden> {
        let mut first = None;
        for step in sheet::records(stream) {
            match (step, first) {
                (Ok(record), None) if NEVER_ENCIPHERED.contains(&record.id) => {}
                (Ok(record), None) => first = Some(record),
                (Ok(record), Some(first)) if record.id == FILEPASS => {
                    return Some(Hidden {
                        first,
                        filepass: record.at,
                    })
                }
                // A body may be cut off where the bytes that are given end.
                (Err(fault), Some(first)) => {
                    filepass_end(stream, fault.at)?;
                    return Some(Hidden {
                        first,
                        filepass: fault.at,
                    });
                }
                _ => {}
            }
        }
        None
    }

    /// What is said of it.
    pub fn words(&self) -> String {
        let Hidden { first, filepass } = self;
        let (id, at) = (first.id, first.at);
        let (record, why) = match id {
            WRITE_PROTECT => (
                "a WriteProtect record",
                "; it was also saved as \"read-only recommended\" or with a password to modify",
            ),
            _ => ("another record", ""),
        };
        format!(
            "look says no, but a FILEPASS record follows at offset {filepass}, after {record} (id \
             {id:04x}) at offset {at}: the workbook may be locked all the same, and its figures \
             enciphered{why}"
        )
    }
}

#[cfg(test)]
mod tests {
    use super::*;

    /// A record with a body.
    fn record(id: u16, body: &[u8]) -> Vec<u8> {
        let len = (body.len() as u16).to_le_bytes();
        [&id.to_le_bytes()[..], &len, body].concat()
    }

    fn stream(records: &[(u16, &[u8])]) -> Vec<u8> {
        records
            .iter()
            .flat_map(|(id, body)| record(*id, body))
            .collect()
    }

    const BOF: (u16, &[u8]) = (0x0809, &[0, 6, 5, 0]);
    const XOR: (u16, &[u8]) = (FILEPASS, &[0, 0, 0x15, 0xB9, 0xC8, 0xCE]);

    #[test]
    fn a_filepass_behind_another_record_is_found() {
        let found = |records: &[(u16, &[u8])]| {
            let hidden = Hidden::in_stream(&stream(records))?;
            Some((hidden.first.id, hidden.first.at, hidden.filepass))
        };
        assert_eq!(
            found(&[BOF, (WRITE_PROTECT, &[]), XOR]),
            Some((0x86, 8, 12))
        );
        assert_eq!(
            found(&[BOF, (0x00E1, &[1]), (0x42, &[2]), (0x86, &[]), XOR]),
            Some((0x42, 13, 22))
        );
        // In its place, there is none behind another record; and none without a FILEPASS.
        assert_eq!(found(&[BOF, XOR, (WRITE_PROTECT, &[])]), None);
        assert_eq!(found(&[BOF, (WRITE_PROTECT, &[]), (0x42, &[])]), None);
        assert_eq!(found(&[BOF]), None);
        assert_eq!(found(&[]), None);
    }

    #[test]
    fn a_filepass_that_is_cut_off_is_found_too() {
        let whole = stream(&[BOF, (WRITE_PROTECT, &[]), XOR]);
        for len in 0..=whole.len() {
            let hidden = Hidden::in_stream(&whole[..len]);
            // Its header has 4 bytes, from offset 12.
            assert_eq!(hidden.is_some(), len >= 16, "{len}");
        }
    }

    #[test]
    fn a_lock_that_goes_on_after_a_look_is_found() {
        // BOF, a clear record up to so many bytes before where a look ends, and a lock.
        let stream = |before: usize, len: usize| {
            let mut records = record(BOF.0, BOF.1);
            while records.len() < LOOK_LEN - before {
                let left = LOOK_LEN - before - records.len();
                let body = if left > 60_000 { 50_000 } else { left } - 4;
                records.extend(record(0x00E1, &vec![7; body]));
            }
            records.extend(record(FILEPASS, &vec![1; len]));
            records
        };
        for (before, len, goes_on) in [
            (10, 5, false),
            (10, 6, false),
            (10, 7, true),
            (10, 65_535, true),
            (4, 0, false),
            (4, 1, true),
            // The header itself is cut there.
            (3, 1, false),
        ] {
            let whole = stream(before, len);
            let read = &whole[..whole.len().min(LOOK_LEN)];
            assert_eq!(lock_goes_on(read), goes_on, "{before} {len}");
            // What is cut off by the end of its file does not go on.
            assert!(!lock_goes_on(&whole[..LOOK_LEN - 1]), "{before} {len}");
        }
        assert!(!lock_goes_on(&[]));
    }

    #[test]
    fn excel_5_and_95_are_recognised() {
        let biff5: (u16, &[u8]) = (0x0809, &[0, 5, 5, 0, 0x5A, 0x0D, 0xCC, 0x07]);
        let four: (u16, &[u8]) = (FILEPASS, &[0x15, 0xB9, 0xC8, 0xCE]);
        for (records, like) in [
            (&[biff5, four][..], true),
            (&[BOF, four], true),
            (&[biff5, XOR], true),
            (&[BOF, (FILEPASS, &[2, 0, 0, 0, 0, 0])], false),
            (&[BOF], false),
            (&[], false),
        ] {
            assert_eq!(is_like_biff5(&stream(records)), like, "{records:?}");
        }
    }
}
