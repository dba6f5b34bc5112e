//! Memory with guard bytes on both sides.

/// How many guard bytes stand on each side.
const GUARD_LEN: usize = 64;
const GUARD: u8 = 0xC3;

/// What a buffer is filled with.
pub const FILL: u8 = 0x5A;

/// A buffer inside a larger allocation.
pub struct Guarded {
    memory: Vec<u8>,
    before: Vec<u8>,
}

impl Guarded {
    /// A buffer with these bytes.
    pub fn with(bytes: &[u8]) -> Guarded {
        let guard = [GUARD; GUARD_LEN];
        Guarded {
            memory: [&guard, bytes, &guard].concat(),
            before: bytes.to_vec(),
        }
    }

    /// A buffer of a length, filled.
    pub fn filled(len: usize) -> Guarded {
        Guarded::with(&vec![FILL; len])
    }

    pub fn get(&self) -> &[u8] {
        &self.memory[GUARD_LEN..self.memory.len() - GUARD_LEN]
    }

    pub fn get_mut(&mut self) -> &mut [u8] {
        let end = self.memory.len() - GUARD_LEN;
        &mut self.memory[GUARD_LEN..end]
    }

    /// Sees that the guard bytes are as they were.
    #[track_caller]
    pub fn check_guards(&self) {
        let (left, rest) = self.memory.split_at(GUARD_LEN);
        let right = &rest[rest.len() - GUARD_LEN..];
        assert!(
            left.iter().all(|byte| *byte == GUARD),
            "written before the buffer"
        );
        assert!(
            right.iter().all(|byte| *byte == GUARD),
            "written behind the buffer"
        );
    }

    /// Sees that nothing was written at all.
    #[track_caller]
    pub fn check_untouched(&self) {
        self.check_guards();
        assert!(self.get() == self.before, "the buffer is not as it was");
    }
}
