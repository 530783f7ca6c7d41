//! The benchmark: kernels, full renders and redraws, beside a plain version of the same arithmetic and a memory pass.
pub mod calls;
pub mod clock;
#[cfg(feature = "library")]
pub mod kernels;
pub mod others;
pub mod picture;
pub mod plain;
pub mod rows;
pub mod turns;
