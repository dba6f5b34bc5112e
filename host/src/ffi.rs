//! The C interface of the proved library, as `include/sheet.h` declares it.
//!
//! Every function asks the same of its caller: a pointer with a length points to that many bytes;
//! what is written (`scratch`, `output`, `facts`) overlaps nothing else of the call; and no other
//! thread writes to the memory of a call while it runs.

extern "C" {
    pub fn sheet_look(stream: *const u8, stream_len: usize, facts: *mut [u64; 8]) -> u32;

    pub fn sheet_same_lock(a: *const u8, a_len: usize, b: *const u8, b_len: usize) -> bool;

    pub fn sheet_record(
        stream: *const u8,
        stream_len: usize,
        at: usize,
        facts: *mut [u64; 8],
    ) -> u32;

    pub fn sheet_directory(
        stream: *const u8,
        stream_len: usize,
        place: usize,
        facts: *mut [u64; 8],
    ) -> u32;

    pub fn sheet_forecast(stream: *const u8, stream_len: usize, facts: *mut [u64; 8]) -> u32;

    pub fn sheet_open(
        stream: *const u8,
        stream_len: usize,
        password: *const u8,
        password_len: usize,
        scratch: *mut u8,
        scratch_len: usize,
        output: *mut u8,
        output_len: usize,
        facts: *mut [u64; 8],
    ) -> u32;

    pub fn sheet_seal_xor(
        plain: *const u8,
        plain_len: usize,
        password: *const u8,
        password_len: usize,
        scratch: *mut u8,
        scratch_len: usize,
        output: *mut u8,
        output_len: usize,
        facts: *mut [u64; 8],
    ) -> u32;

    pub fn sheet_seal_office97(
        plain: *const u8,
        plain_len: usize,
        password: *const u8,
        password_len: usize,
        salt: *const [u8; 16],
        verifier: *const [u8; 16],
        scratch: *mut u8,
        scratch_len: usize,
        output: *mut u8,
        output_len: usize,
        facts: *mut [u64; 8],
    ) -> u32;

    pub fn sheet_seal_cryptoapi(
        plain: *const u8,
        plain_len: usize,
        password: *const u8,
        password_len: usize,
        salt: *const [u8; 16],
        verifier: *const [u8; 16],
        major: u16,
        key_size: u32,
        scratch: *mut u8,
        scratch_len: usize,
        output: *mut u8,
        output_len: usize,
        facts: *mut [u64; 8],
    ) -> u32;
}
