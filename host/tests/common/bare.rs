//! Functions of the library, to be called without the wrapper, and all eight facts of such a call.

use sheet::{Choice, SCRATCH_LEN};

extern "C" {
    pub fn sheet_same_lock(a: *const u8, a_len: usize, b: *const u8, b_len: usize) -> bool;

    pub fn sheet_record(
        stream: *const u8,
        stream_len: usize,
        at: usize,
        facts: *mut [u64; 8],
    ) -> u32;

    pub fn sheet_directory(
        stream: *const u8,
        stream_len: usize,
        place: usize,
        facts: *mut [u64; 8],
    ) -> u32;

    pub fn sheet_forecast(stream: *const u8, stream_len: usize, facts: *mut [u64; 8]) -> u32;

    pub fn sheet_open(
        stream: *const u8,
        stream_len: usize,
        password: *const u8,
        password_len: usize,
        scratch: *mut u8,
        scratch_len: usize,
        output: *mut u8,
        output_len: usize,
        facts: *mut [u64; 8],
    ) -> u32;

    pub fn sheet_seal_xor(
        plain: *const u8,
        plain_len: usize,
        password: *const u8,
        password_len: usize,
        scratch: *mut u8,
        scratch_len: usize,
        output: *mut u8,
        output_len: usize,
        facts: *mut [u64; 8],
    ) -> u32;

    pub fn sheet_seal_office97(
        plain: *const u8,
        plain_len: usize,
        password: *const u8,
        password_len: usize,
        salt: *const [u8; 16],
        verifier: *const [u8; 16],
        scratch: *mut u8,
        scratch_len: usize,
        output: *mut u8,
        output_len: usize,
        facts: *mut [u64; 8],
    ) -> u32;

    pub fn sheet_seal_cryptoapi(
        plain: *const u8,
        plain_len: usize,
        password: *const u8,
        password_len: usize,
        salt: *const [u8; 16],
        verifier: *const [u8; 16],
        major: u16,
        key_size: u32,
        scratch: *mut u8,
        scratch_len: usize,
        output: *mut u8,
        output_len: usize,
        facts: *mut [u64; 8],
    ) -> u32;
}

/// The answer and the facts of a call without the wrapper.
pub type Answer = (u32, [u64; 8]);

/// Makes a call, and sees that all eight facts are written, whatever stood there, and nothing beside
/// them.
#[track_caller]
fn answer(mut call: impl FnMut(&mut [u64; 8]) -> u32) -> Answer {
    let [a, b] = [0xAAAA_AAAA_AAAA_AAAA, 0x5555_5555_5555_5555].map(|junk| {
        let mut lent = [[junk; 8]; 3];
        let number = call(&mut lent[1]);
        assert_eq!((lent[0], lent[2]), ([junk; 8], [junk; 8]));
        (number, lent[1])
    });
    assert_eq!(a, b, "a fact is not written");
    a
}

#[track_caller]
pub fn record(stream: &[u8], at: usize) -> Answer {
    // SAFETY: the stream is lent with its length, and the eight numbers overlap nothing.
    answer(|facts| unsafe { sheet_record(stream.as_ptr(), stream.len(), at, facts) })
}

#[track_caller]
pub fn directory(stream: &[u8], place: usize) -> Answer {
    // SAFETY: the stream is lent with its length, and the eight numbers overlap nothing.
    answer(|facts| unsafe { sheet_directory(stream.as_ptr(), stream.len(), place, facts) })
}

#[track_caller]
pub fn forecast(stream: &[u8]) -> Answer {
    // SAFETY: the stream is lent with its length, and the eight numbers overlap nothing.
    answer(|facts| unsafe { sheet_forecast(stream.as_ptr(), stream.len(), facts) })
}

#[track_caller]
pub fn open(stream: &[u8], password: &[u8]) -> Answer {
    open_lent(stream, password, SCRATCH_LEN)
}

/// An opening that is lent a scratch of so many bytes.
#[track_caller]
pub fn open_lent(stream: &[u8], password: &[u8], scratch: usize) -> Answer {
    let mut scratch = vec![0; scratch];
    let mut output = vec![0; stream.len()];
    // SAFETY: as the wrapper has it.
    answer(|facts| unsafe {
        sheet_open(
            stream.as_ptr(),
            stream.len(),
            password.as_ptr(),
            password.len(),
            scratch.as_mut_ptr(),
            scratch.len(),
            output.as_mut_ptr(),
            output.len(),
            facts,
        )
    })
}

#[track_caller]
pub fn seal(plain: &[u8], password: &[u8], choice: &Choice) -> Answer {
    seal_lent(plain, password, choice, SCRATCH_LEN)
}

/// A sealing that is lent a scratch of so many bytes.
#[track_caller]
pub fn seal_lent(plain: &[u8], password: &[u8], choice: &Choice, scratch: usize) -> Answer {
    let mut scratch = vec![0; scratch];
    let mut output = vec![0; plain.len()];
    answer(|facts| seal_into(plain, password, choice, &mut scratch, &mut output, facts))
}

/// A sealing with these buffers.
pub fn seal_into(
    plain: &[u8],
    password: &[u8],
    choice: &Choice,
    scratch: &mut [u8],
    output: &mut [u8],
    facts: &mut [u64; 8],
) -> u32 {
    // SAFETY: as the wrapper has it.
    unsafe {
        match choice {
            Choice::Xor => sheet_seal_xor(
                plain.as_ptr(),
                plain.len(),
                password.as_ptr(),
                password.len(),
                scratch.as_mut_ptr(),
                scratch.len(),
                output.as_mut_ptr(),
                output.len(),
                facts,
            ),
            Choice::Office97 { salt, verifier } => sheet_seal_office97(
                plain.as_ptr(),
                plain.len(),
                password.as_ptr(),
                password.len(),
                salt,
                verifier,
                scratch.as_mut_ptr(),
                scratch.len(),
                output.as_mut_ptr(),
                output.len(),
                facts,
            ),
            Choice::CryptoApi {
                salt,
                verifier,
                major,
                key_bits,
            } => sheet_seal_cryptoapi(
                plain.as_ptr(),
                plain.len(),
                password.as_ptr(),
                password.len(),
                salt,
                verifier,
                *major,
                *key_bits,
                scratch.as_mut_ptr(),
                scratch.len(),
                output.as_mut_ptr(),
                output.len(),
                facts,
            ),
        }
    }
}
