//! The buffers that are lent to an opening or a sealing.

use sheet::{Choice, Refusal, Report, SCRATCH_LEN};

use super::guarded::{Guarded, FILL};

/// How many bytes of the scratch end zero. A number of its own, so that a wrong constant of the
/// wrapper is noticed.
const ZEROED: usize = 64;

/// The buffers of a call to `open` or `seal`.
pub struct Lent {
    stream: Guarded,
    password: Guarded,
    scratch: Guarded,
    output: Guarded,
}

impl Lent {
    pub fn new(stream: &[u8], password: &[u8], scratch: usize, output: usize) -> Lent {
        Lent {
            stream: Guarded::with(stream),
            password: Guarded::with(password),
            scratch: Guarded::filled(scratch),
            output: Guarded::filled(output),
        }
    }

    /// Buffers that suffice.
    pub fn enough(stream: &[u8], password: &[u8]) -> Lent {
        Lent::new(stream, password, SCRATCH_LEN, stream.len())
    }

    /// Opens, and sees that nothing is written beside the buffers, nor to what is read, nor to the
    /// output if refused, and that the scratch is as promised.
    #[track_caller]
    pub fn open(&mut self) -> Result<Report, Refusal> {
        self.call(sheet::open)
    }

    /// Seals, and sees to the same, and that the choice is as it was.
    #[track_caller]
    pub fn seal(&mut self, choice: &Choice) -> Result<Report, Refusal> {
        let before = *choice;
        let answer = self.call(|plain, password, scratch, output| {
            sheet::seal(plain, password, choice, scratch, output)
        });
        assert_eq!(*choice, before);
        answer
    }

    #[track_caller]
    fn call(
        &mut self,
        call: impl FnOnce(&[u8], &[u8], &mut [u8], &mut [u8]) -> Result<Report, Refusal>,
    ) -> Result<Report, Refusal> {
        let answer = call(
            self.stream.get(),
            self.password.get(),
            self.scratch.get_mut(),
            self.output.get_mut(),
        );
        self.stream.check_untouched();
        self.password.check_untouched();
        self.scratch.check_guards();
        self.output.check_guards();
        match answer {
            Ok(_) => {
                let behind = &self.output.get()[self.stream.get().len()..];
                assert!(behind.iter().all(|byte| *byte == FILL));
            }
            Err(_) => self.output.check_untouched(),
        }
        match answer {
            Err(refusal) if refusal.number() <= 5 => self.scratch.check_untouched(),
            _ => {
                let (used, behind) = self.scratch.get().split_at(ZEROED);
                assert!(used.iter().all(|byte| *byte == 0));
                assert!(behind.iter().all(|byte| *byte == FILL));
            }
        }
        answer
    }

    /// Opens, and sees that the plain stream comes out.
    #[track_caller]
    pub fn open_to(&mut self, plain: &[u8]) -> Report {
        let report = self.open().unwrap();
        assert!(self.written() == plain);
        report
    }

    /// Seals, and sees that the sealed stream comes out.
    #[track_caller]
    pub fn seal_to(&mut self, choice: &Choice, sealed: &[u8]) -> Report {
        let report = self.seal(choice).unwrap();
        assert!(self.written() == sealed);
        report
    }

    /// What was written to the output, by a call that was not refused.
    pub fn written(&self) -> &[u8] {
        &self.output.get()[..self.stream.get().len()]
    }
}
