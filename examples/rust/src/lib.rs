//! Whole-number square and cube roots with remainder for u8, u16, u32 and u64, by the proved calls of the archive.
//!
//! [`SquareRootRem`], [`CubicRootRem`], [`SquareRoot`] and [`CubicRoot`] have dashu-base's names and shapes. The functions
//! [`sqrt_rem`] and [`cbrt_rem`] also keep start and steps.
//!
//! ```
//! use fregnaul::SquareRootRem;
//! assert_eq!(26u32.sqrt_rem(), (5, 1));
//! ```
//!
//! # In place of dashu-base
//!
//! An engine changes three things:
//!
//! - in its `Cargo.toml`, `dashu-base = ..` to `fregnaul = { path = "../fregnaul/examples/rust" }`;
//! - in its source, `use dashu_base::{..}` to `use fregnaul::{..}`;
//! - in its build, `./archive` in Fregnaul's repository comes first: it writes `target/staticlib/libfregnaul.a`, for x86-64
//!   Linux. Where that file lies elsewhere, the environment variable `FREGNAUL_ARCHIVE` names its folder.
//!
//! Roots of u128, and what else dashu-base has, are not here: an engine that needs them keeps dashu-base beside this crate.
//!
//! # Without std
//!
//! The crate is `no_std`. Its feature `std`, which is on by default, makes [`Refusal`] a `std::error::Error`.
#![no_std]

#[cfg(feature = "std")]
extern crate std;

mod raw;
mod refusal;
mod width;

pub use raw::Root;
pub use refusal::Refusal;
pub use width::{Normalized, Width};

/// The square root, rounded down, and what is left of the value.
pub trait SquareRootRem {
    type Output;
    fn sqrt_rem(&self) -> (Self::Output, Self);
}

/// The cube root, rounded down, and what is left of the value.
pub trait CubicRootRem {
    type Output;
    fn cbrt_rem(&self) -> (Self::Output, Self);
}

/// The square root, rounded down.
pub trait SquareRoot {
    type Output;
    fn sqrt(&self) -> Self::Output;
}

/// The cube root, rounded down.
pub trait CubicRoot {
    type Output;
    fn cbrt(&self) -> Self::Output;
}

/// Square root and rest, with start and steps.
pub fn sqrt_rem<N: Width>(n: N) -> Root<N::Root, N> {
    n.full_sqrt()
}

/// Cube root and rest, with start and steps.
pub fn cbrt_rem<N: Width>(n: N) -> Root<N::Root, N> {
    n.full_cbrt()
}

/// As `sqrt_rem`, of a value that has one of its two top bits set; any other is refused.
pub fn normalized_sqrt_rem<N: Normalized>(n: N) -> Result<Root<N::Root, N>, Refusal> {
    n.normalized_sqrt()
}

/// As `cbrt_rem`, of a value that has one of its three top bits set; any other is refused.
pub fn normalized_cbrt_rem<N: Normalized>(n: N) -> Result<Root<N::Root, N>, Refusal> {
    n.normalized_cbrt()
}

/// The value whose square root and rest these are.
pub fn rebuild_square<N: Width>(root: N::Root, rest: N) -> Result<N, Refusal> {
    N::rebuilt_square(root, rest)
}

/// The value whose cube root and rest these are.
pub fn rebuild_cube<N: Width>(root: N::Root, rest: N) -> Result<N, Refusal> {
    N::rebuilt_cube(root, rest)
}

/// How far a batch came, and how many steps that cost.
#[derive(Clone, Copy, Debug, PartialEq, Eq)]
pub struct Done {
    pub done: usize,
    pub spent: u64,
}

/// Writes the square roots of `count` values from `first` on to the same places of `roots`, as far as `budget` steps go.
/// Every other place of `roots` keeps what it held.
pub fn sqrt_batch(values: &[u32], roots: &mut [u16], first: usize, count: usize, budget: u64) -> Result<Done, Refusal> {
    // Safety: both pointers go with their own slices' lengths, and the call keeps neither.
    let answer = unsafe {
        raw::fregnaul_sqrt_batch_u32(values.as_ptr(), values.len(), roots.as_mut_ptr(), roots.len(), first, count, budget)
    };
    refusal::answered(answer.refusal, Done { done: answer.done, spent: answer.spent })
}
