//! The reader's own arithmetic, which is defined over whole numbers.
//!
//! On finite numbers it is that of the machine, each operation rounding once,
//! and the machine computes it; [`float_ready`] says whether it may.
//! A number with exponent field 2047 counts as if it were finite with the next
//! exponent, but for an infinity that is added to a finite number.

use crate::raw;

/// Whether this thread's float unit rounds as the reader needs: to nearest,
/// ties to even, small numbers kept. Where it answers `false`, nothing else of
/// this crate may be called on this thread.
///
/// Rust asks the same of every thread, so that safe code cannot change it. C
/// code in the same process can: a program linked with `-ffast-math`, or a
/// library that sets the rounding, flush to zero (FTZ, FZ) or denormals are
/// zeros (DAZ, FIZ) and does not set them back. Each thread has its own unit,
/// and a new one may begin with that of the thread that made it. A trap that
/// is enabled is not found: it is taken in this call as in any other. An
/// archive that computes over whole numbers alone always answers `true`.
///
/// ```
/// assert!(lerc2::float_ready());
/// ```
pub fn float_ready() -> bool {
    raw::float_ready(0)
}

/// The sum, nearest with ties to even. An infinity and a finite number, either
/// way round, add to that infinity.
pub fn sum(a: f64, b: f64) -> f64 {
    f64::from_bits(raw::sum(a.to_bits(), b.to_bits()))
}

/// Twice `q` times `a`, nearest with ties to even.
pub fn scaled(a: f64, q: u32) -> f64 {
    f64::from_bits(raw::scaled(a.to_bits(), q))
}

/// The nearest binary32, ties to even.
pub fn narrow(v: f64) -> f32 {
    f32::from_bits(raw::narrow(v.to_bits()))
}
