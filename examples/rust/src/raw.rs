//! The archive's functions and structs as C has them; checks/bindings holds them to include/fregnaul.h. Everything else
//! stands on this file alone.

#[cfg(not(target_pointer_width = "64"))]
compile_error!("fregnaul: lengths are 64 bits wide");

/// What a full call answers: root and rest, where the fix-up started and how many steps it took.
#[repr(C)]
#[derive(Clone, Copy, Debug, PartialEq, Eq)]
pub struct Root<R, N> {
    pub root: R,
    pub rest: N,
    pub start: R,
    pub steps: R,
}

/// What a normalised call answers: `refusal` is 0, or 1 with zeros beside it.
#[repr(C)]
pub struct NormalizedRoot<R, N> {
    pub refusal: u8,
    pub root: R,
    pub rest: N,
    pub start: R,
    pub steps: R,
}

/// What rebuilding answers: `refusal` is 0, or 5 or 6 with a value of 0.
#[repr(C)]
pub struct Rebuilt<N> {
    pub refusal: u8,
    pub value: N,
}

/// What a batch answers: `refusal` is 0, or 2, 3 or 4 with zeros beside it.
#[repr(C)]
pub struct BatchAnswer {
    pub refusal: u8,
    pub done: usize,
    pub spent: u64,
}

extern "C" {
    pub fn fregnaul_sqrt_rem_u8(n: u8) -> Root<u8, u8>;
    pub fn fregnaul_sqrt_rem_u16(n: u16) -> Root<u8, u16>;
    pub fn fregnaul_sqrt_rem_u32(n: u32) -> Root<u16, u32>;
    pub fn fregnaul_sqrt_rem_u64(n: u64) -> Root<u32, u64>;
    pub fn fregnaul_cbrt_rem_u8(n: u8) -> Root<u8, u8>;
    pub fn fregnaul_cbrt_rem_u16(n: u16) -> Root<u8, u16>;
    pub fn fregnaul_cbrt_rem_u32(n: u32) -> Root<u16, u32>;
    pub fn fregnaul_cbrt_rem_u64(n: u64) -> Root<u32, u64>;

    pub fn fregnaul_sqrt_u8(n: u8) -> u8;
    pub fn fregnaul_sqrt_u16(n: u16) -> u8;
    pub fn fregnaul_sqrt_u32(n: u32) -> u16;
    pub fn fregnaul_sqrt_u64(n: u64) -> u32;
    pub fn fregnaul_cbrt_u8(n: u8) -> u8;
    pub fn fregnaul_cbrt_u16(n: u16) -> u8;
    pub fn fregnaul_cbrt_u32(n: u32) -> u16;
    pub fn fregnaul_cbrt_u64(n: u64) -> u32;

    pub fn fregnaul_normalized_sqrt_rem_u16(n: u16) -> NormalizedRoot<u8, u16>;
    pub fn fregnaul_normalized_sqrt_rem_u32(n: u32) -> NormalizedRoot<u16, u32>;
    pub fn fregnaul_normalized_sqrt_rem_u64(n: u64) -> NormalizedRoot<u32, u64>;
    pub fn fregnaul_normalized_cbrt_rem_u16(n: u16) -> NormalizedRoot<u8, u16>;
    pub fn fregnaul_normalized_cbrt_rem_u32(n: u32) -> NormalizedRoot<u16, u32>;
    pub fn fregnaul_normalized_cbrt_rem_u64(n: u64) -> NormalizedRoot<u32, u64>;

    pub fn fregnaul_rebuild_square_u8(root: u8, rest: u8) -> Rebuilt<u8>;
    pub fn fregnaul_rebuild_square_u16(root: u8, rest: u16) -> Rebuilt<u16>;
    pub fn fregnaul_rebuild_square_u32(root: u16, rest: u32) -> Rebuilt<u32>;
    pub fn fregnaul_rebuild_square_u64(root: u32, rest: u64) -> Rebuilt<u64>;
    pub fn fregnaul_rebuild_cube_u8(root: u8, rest: u8) -> Rebuilt<u8>;
    pub fn fregnaul_rebuild_cube_u16(root: u8, rest: u16) -> Rebuilt<u16>;
    pub fn fregnaul_rebuild_cube_u32(root: u16, rest: u32) -> Rebuilt<u32>;
    pub fn fregnaul_rebuild_cube_u64(root: u32, rest: u64) -> Rebuilt<u64>;

    pub fn fregnaul_sqrt_batch_u32(
        values: *const u32,
        values_length: usize,
        roots: *mut u16,
        roots_length: usize,
        first: usize,
        count: usize,
        budget: u64,
    ) -> BatchAnswer;
}
