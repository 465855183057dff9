//! `float_ready` on a thread whose float unit was changed.
//!
//! An archive that computes over whole numbers alone is ready in every mode.
//! `LERC2_WORDS=1` says that the archive is one; the tests fail where it is
//! said of another, and where it is not said of one.

#![cfg(any(target_arch = "x86_64", target_arch = "aarch64"))]

use std::arch::asm;
use std::env;

extern "C" fn ready() -> u32 {
    lerc2::float_ready().into()
}

#[cfg(target_arch = "x86_64")]
mod unit {
    use super::*;

    /// Bits of MXCSR.
    pub const MODES: [(&str, u64); 6] = [
        ("round down", 1 << 13),
        ("round up", 2 << 13),
        ("toward zero", 3 << 13),
        ("flush to zero", 1 << 15),
        ("denormals are zeros", 1 << 6),
        ("flush to zero, denormals are zeros", 1 << 15 | 1 << 6),
    ];

    /// MXCSR without its sticky flags.
    pub fn state() -> u64 {
        let mut state = 0u32;
        unsafe { asm!("stmxcsr [{}]", in(reg) &mut state, options(nostack)) };
        (state & !0x3F).into()
    }

    /// What `ready` says with these bits set. They are set back before Rust
    /// goes on; r12 is kept by what is called.
    pub fn ready_with(mode: u64) -> bool {
        let now = state() as u32;
        let states = [now | mode as u32, now];
        let said: u32;
        unsafe {
            asm!(
                "ldmxcsr [r12]",
                "call {ready}",
                "ldmxcsr [r12 + 4]",
                ready = sym ready,
                in("r12") states.as_ptr(),
                lateout("eax") said,
                clobber_abi("C"),
            )
        };
        said == 1
    }
}

#[cfg(target_arch = "aarch64")]
mod unit {
    use super::*;

    /// Bits of FPCR. FZ flushes operands and results.
    pub const MODES: [(&str, u64); 4] = [
        ("round up", 1 << 22),
        ("round down", 2 << 22),
        ("toward zero", 3 << 22),
        ("flush to zero", 1 << 24),
    ];

    pub fn state() -> u64 {
        let state;
        unsafe { asm!("mrs {}, fpcr", out(reg) state, options(nomem, nostack)) };
        state
    }

    /// What `ready` says with these bits set. They are set back before Rust
    /// goes on; x20 and x21 are kept by what is called.
    pub fn ready_with(mode: u64) -> bool {
        let now = state();
        let said: u32;
        unsafe {
            asm!(
                "msr fpcr, x20",
                "bl {ready}",
                "msr fpcr, x21",
                ready = sym ready,
                in("x20") now | mode,
                in("x21") now,
                lateout("w0") said,
                clobber_abi("C"),
            )
        };
        said == 1
    }
}

#[test]
fn no_other_mode_is_ready() {
    let words = env::var_os("LERC2_WORDS").is_some_and(|value| value == "1");
    assert!(lerc2::float_ready(), "before");
    let before = unit::state();
    for (name, mode) in unit::MODES {
        let said = unit::ready_with(mode);
        assert_eq!(said, words, "{name}; LERC2_WORDS=1 is for whole numbers");
        assert!(lerc2::float_ready(), "after {name}");
    }
    assert_eq!(unit::state(), before);
}

/// Each thread has its own.
#[test]
fn another_thread_is_ready() {
    assert!(std::thread::spawn(lerc2::float_ready).join().unwrap());
}

/// Other operands, of which the proof says the same.
#[test]
fn any_mix_is_ready() {
    let mut mix = 0u64;
    for _ in 0..20_000 {
        mix = mix
            .wrapping_mul(6364136223846793005)
            .wrapping_add(1442695040888963407);
        assert!(lerc2::raw::float_ready(mix), "{mix:#x}");
    }
}
