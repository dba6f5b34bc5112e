//! An opening of a gibibyte, whose output takes as much memory: its report is what was forecast. And a
//! sealing of one, which opens again.

mod common;

use std::sync::Mutex;

use common::book::{joined, Kind, BOF, FILEPASS};
use sheet::{Choice, Forecast, Lock, Report, SCRATCH_LEN, STREAM_MAX_LEN};

/// Each takes two gibibytes of memory, so one waits for the other.
static ONE: Mutex<()> = Mutex::new(());

#[test]
fn an_opening_of_a_gibibyte_reports_what_was_told() {
    let _one = ONE.lock();
    let mut stream = vec![0; STREAM_MAX_LEN];
    let front = [(BOF, vec![0; 2]), (FILEPASS, Kind::Office97.filepass("A"))];
    stream[..64].copy_from_slice(&joined(&front));
    // Behind the two, each four zeros are a record of no bytes; a key for the check and for each block.
    let expected = Forecast {
        output_bytes: 1_073_741_824,
        records: 2 + 268_435_440,
        enciphered_body_bytes: 0,
        block_keys: 1_048_577,
    };
    assert_eq!(sheet::forecast(&stream), Ok(expected));
    let mut scratch = [0; SCRATCH_LEN];
    let mut output = vec![0; STREAM_MAX_LEN];
    let report = sheet::open(&stream, b"A", &mut scratch, &mut output).unwrap();
    let expected = Report {
        records: expected.records,
        lock: Lock::Office97,
        key_bits: Some(40),
        summary_sealed: false,
        output_bytes: expected.output_bytes,
        enciphered_body_bytes: expected.enciphered_body_bytes,
        block_keys: expected.block_keys,
    };
    assert_eq!(report, expected);
    stream[6..64].copy_from_slice(&joined(&[(0, vec![0; 54])]));
    assert!(output == stream);
}

#[test]
fn a_sealing_of_a_gibibyte_opens_again() {
    let _one = ONE.lock();
    let mut plain = vec![0; STREAM_MAX_LEN];
    let front = [(BOF, vec![0; 2]), (0, vec![0; 106])];
    plain[..116].copy_from_slice(&joined(&front));
    // Rows of 65,532 bytes, and at the end records of no bytes.
    let rows = (STREAM_MAX_LEN - 116) / 65_536;
    for row in 0..rows {
        let at = 116 + row * 65_536;
        plain[at..at + 4].copy_from_slice(&[0x04, 0x02, 0xFC, 0xFF]);
    }
    let choice = Choice::CryptoApi {
        salt: [7; 16],
        verifier: [9; 16],
        major: 4,
        key_bits: 128,
    };
    let mut scratch = [0; SCRATCH_LEN];
    let mut sealed = vec![0; STREAM_MAX_LEN];
    let told = sheet::seal(&plain, b"A", &choice, &mut scratch, &mut sealed).unwrap();
    let expected = Report {
        records: 2 + rows + (STREAM_MAX_LEN - 116 - rows * 65_536) / 4,
        lock: Lock::CryptoApi,
        key_bits: Some(128),
        summary_sealed: false,
        output_bytes: 1_073_741_824,
        enciphered_body_bytes: rows * 65_532,
        block_keys: 1_048_577,
    };
    assert_eq!(told, expected);
    // Every row is enciphered, and its header is not.
    for row in (0..rows).step_by(997) {
        let at = 116 + row * 65_536;
        assert_eq!(sealed[at..at + 4], plain[at..at + 4]);
        assert!(sealed[at + 4..at + 20] != [0; 16]);
    }
    // The same buffer takes the plain stream again.
    let mut again = plain;
    again.fill(0xEE);
    let report = sheet::open(&sealed, b"A", &mut scratch, &mut again).unwrap();
    assert_eq!(report, expected);
    assert_eq!(again[..116], joined(&front));
    for row in 0..rows {
        let at = 116 + row * 65_536;
        assert_eq!(again[at..at + 4], [0x04, 0x02, 0xFC, 0xFF]);
        assert!(again[at + 4..at + 65_536] == [0; 65_532]);
    }
    assert!(again[116 + rows * 65_536..].iter().all(|byte| *byte == 0));
}
