//! The port: four functions of include/sheet.h.

/// The scratch that Open asks for, and how much of it ends zero (document 02, T-06).
pub const SCRATCH_LEN: usize = 64;
/// A long scratch, as document 01 has it. T-06 wants the same answers for it, and everything after the first `SCRATCH_LEN` bytes as it was lent.
pub const LONG_SCRATCH_LEN: usize = 2064;
/// The most bytes of a password, and of a stream.
pub const PASSWORD_MAX_LEN: usize = 1024;
pub const STREAM_MAX_LEN: usize = 1 << 30;

extern "C" {
    fn sheet_look(stream: *const u8, stream_len: usize, facts: *mut u64) -> u32;
    fn sheet_same_lock(a: *const u8, a_len: usize, b: *const u8, b_len: usize) -> u8;
    fn sheet_forecast(stream: *const u8, stream_len: usize, facts: *mut u64) -> u32;
    fn sheet_open(
        stream: *const u8,
        stream_len: usize,
        password: *const u8,
        password_len: usize,
        scratch: *mut u8,
        scratch_len: usize,
        output: *mut u8,
        output_len: usize,
        facts: *mut u64,
    ) -> u32;
}

/// What the facts hold before a call: all eight are to be written.
const UNWRITTEN: [u64; 8] = [0xDEAD_BEEF_DEAD_BEEF; 8];

pub fn look(stream: &[u8]) -> (u32, [u64; 8]) {
    let mut facts = UNWRITTEN;
    let number = unsafe { sheet_look(stream.as_ptr(), stream.len(), facts.as_mut_ptr()) };
    (number, facts)
}

/// The answer as the byte that is returned: 0 or 1.
pub fn same_lock(a: &[u8], b: &[u8]) -> u8 {
    unsafe { sheet_same_lock(a.as_ptr(), a.len(), b.as_ptr(), b.len()) }
}

pub fn forecast(stream: &[u8]) -> (u32, [u64; 8]) {
    let mut facts = UNWRITTEN;
    let number = unsafe { sheet_forecast(stream.as_ptr(), stream.len(), facts.as_mut_ptr()) };
    (number, facts)
}

pub fn open(stream: &[u8], password: &[u8], scratch: &mut [u8], output: &mut [u8]) -> (u32, [u64; 8]) {
    let mut facts = UNWRITTEN;
    let number = unsafe {
        sheet_open(
            stream.as_ptr(),
            stream.len(),
            password.as_ptr(),
            password.len(),
            scratch.as_mut_ptr(),
            scratch.len(),
            output.as_mut_ptr(),
            output.len(),
            facts.as_mut_ptr(),
        )
    };
    (number, facts)
}
