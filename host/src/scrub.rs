//! What is overwritten after a call that takes a password.

use core::arch::asm;
use core::arch::x86_64::{__cpuid, __cpuid_count};
use core::mem::MaybeUninit;
use core::sync::atomic::{compiler_fence, AtomicU8, Ordering};

/// The stack that is overwritten after a call, in bytes. A call was measured to use less than 5,500.
const SCRUBBED_LEN: usize = 16 * 1024;

/// Overwrites what a call that takes a password can have left behind in registers and on the stack:
/// the caller calls both at the same depth, the call in a function that is not inlined.
///
/// The first [`SCRATCH_LEN`](crate::SCRATCH_LEN) bytes of the scratch, the only ones that password
/// text goes through, are proved to end zero. But the digests, keys and RC4 tables that are made from
/// the password, and under XOR the password itself, are left in the call's own stack frames. The
/// language of the proofs can't speak of the stack that a call leaves behind, so it is cleared here.
#[inline(never)]
pub fn scrub() {
    clear_registers();
    const WORDS: usize = SCRUBBED_LEN / size_of::<u64>();
    let mut region = MaybeUninit::<[u64; WORDS]>::uninit();
    let first = region.as_mut_ptr().cast::<u64>();
    let mut word = 0;
    while word < WORDS {
        // SAFETY: `word` is below the number of words of the local that `first` points to. The
        // write is volatile, so it is made though nobody reads it.
        unsafe { first.add(word).write_volatile(0) };
        word += 1;
    }
    compiler_fence(Ordering::SeqCst);
}

/// Zeroes the registers that a function need not give back as they were.
///
/// Parts of the keys and tables, and under XOR of the array, are left in the vector registers, by the
/// C library's memcpy and by the call itself. Anything that saves those registers later, as a signal
/// does, would write them to the stack again.
fn clear_registers() {
    // SAFETY: the instructions are those of the registers that were detected. They touch registers
    // alone, all of them said to be overwritten by `clobber_abi`.
    unsafe {
        match vector_registers() {
            ZMM => asm!(
                "vzeroall",
                ".irp n, 16, 17, 18, 19, 20, 21, 22, 23, 24, 25, 26, 27, 28, 29, 30, 31",
                "vpxord zmm\\n, zmm\\n, zmm\\n",
                ".endr",
                clobber_abi("C"),
                options(nomem, nostack)
            ),
            YMM => asm!("vzeroall", clobber_abi("C"), options(nomem, nostack)),
            _ => asm!(
                ".irp n, 0, 1, 2, 3, 4, 5, 6, 7, 8, 9, 10, 11, 12, 13, 14, 15",
                "pxor xmm\\n, xmm\\n",
                ".endr",
                clobber_abi("C"),
                options(nomem, nostack)
            ),
        }
        asm!(
            ".irp register, eax, ecx, edx, esi, edi, r8d, r9d, r10d, r11d",
            "xor \\register, \\register",
            ".endr",
            clobber_abi("C"),
            options(nomem, nostack)
        );
    }
}

/// The widest vector registers: of 16, 32 or 64 bytes. 0 is not looked yet.
const XMM: u8 = 1;
const YMM: u8 = 2;
const ZMM: u8 = 3;

/// The widest vector registers that the processor has and the operating system saves. What was found
/// is kept, as the question is slow on a virtual machine.
fn vector_registers() -> u8 {
    static FOUND: AtomicU8 = AtomicU8::new(0);
    match FOUND.load(Ordering::Relaxed) {
        0 => {
            let found = detect();
            FOUND.store(found, Ordering::Relaxed);
            found
        }
        found => found,
    }
}

/// Asks the processor: CPUID leaf 1 has OSXSAVE (ECX bit 27) and AVX (28), leaf 7 has AVX-512F (EBX
/// bit 16); XCR0 has what the system saves, XMM (bit 1), YMM (2), and the three parts of AVX-512's
/// state (5 to 7).
#[allow(unused_unsafe)]
fn detect() -> u8 {
    // SAFETY: every x86-64 processor has CPUID, and XGETBV where it says OSXSAVE.
    unsafe {
        let highest = __cpuid(0).eax;
        let features = __cpuid(1).ecx;
        if features & (1 << 27) == 0 || features & (1 << 28) == 0 {
            return XMM;
        }
        let saved: u32;
        asm!("xgetbv", in("ecx") 0, out("eax") saved, out("edx") _, options(nomem, nostack));
        if saved & 0b110 != 0b110 {
            return XMM;
        }
        let wide = highest >= 7 && __cpuid_count(7, 0).ebx & (1 << 16) != 0;
        if wide && saved & 0b1110_0000 == 0b1110_0000 {
            ZMM
        } else {
            YMM
        }
    }
}

#[cfg(test)]
mod tests {
    use super::*;

    #[test]
    fn the_registers_are_those_that_the_standard_library_finds() {
        let found = if std::is_x86_feature_detected!("avx512f") {
            ZMM
        } else if std::is_x86_feature_detected!("avx") {
            YMM
        } else {
            XMM
        };
        assert_eq!((detect(), vector_registers()), (found, found));
    }
}
