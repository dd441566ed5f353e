//! The calls by width: which function of the archive serves which type. None of those functions needs anything of its
//! caller, so each `unsafe` below is sound for every argument.
use crate::raw::{self, NormalizedRoot, Rebuilt, Root};
use crate::refusal::answered;
use crate::{CubicRoot, CubicRootRem, Refusal, SquareRoot, SquareRootRem};

/// A type with roots: u8, u16, u32 or u64.
pub trait Width: Sized + SquareRootRem + CubicRootRem + SquareRoot + CubicRoot {
    /// What holds a root of this type.
    type Root;
    fn full_sqrt(self) -> Root<Self::Root, Self>;
    fn full_cbrt(self) -> Root<Self::Root, Self>;
    fn rebuilt_square(root: Self::Root, rest: Self) -> Result<Self, Refusal>;
    fn rebuilt_cube(root: Self::Root, rest: Self) -> Result<Self, Refusal>;
}

/// A type that has normalised calls too: u16, u32 or u64.
pub trait Normalized: Width {
    fn normalized_sqrt(self) -> Result<Root<Self::Root, Self>, Refusal>;
    fn normalized_cbrt(self) -> Result<Root<Self::Root, Self>, Refusal>;
}

impl<R, N> NormalizedRoot<R, N> {
    fn answer(self) -> Result<Root<R, N>, Refusal> {
        let NormalizedRoot { refusal, root, rest, start, steps } = self;
        answered(refusal, Root { root, rest, start, steps })
    }
}

impl<N> Rebuilt<N> {
    fn answer(self) -> Result<N, Refusal> {
        answered(self.refusal, self.value)
    }
}

macro_rules! traits_of_dashu {
    ($n:ty, $root:ty, $sqrt:ident, $cbrt:ident) => {
        impl SquareRootRem for $n {
            type Output = $root;
            fn sqrt_rem(&self) -> ($root, $n) {
                let answer = self.full_sqrt();
                (answer.root, answer.rest)
            }
        }
        impl CubicRootRem for $n {
            type Output = $root;
            fn cbrt_rem(&self) -> ($root, $n) {
                let answer = self.full_cbrt();
                (answer.root, answer.rest)
            }
        }
        impl SquareRoot for $n {
            type Output = $root;
            fn sqrt(&self) -> $root {
                unsafe { raw::$sqrt(*self) }
            }
        }
        impl CubicRoot for $n {
            type Output = $root;
            fn cbrt(&self) -> $root {
                unsafe { raw::$cbrt(*self) }
            }
        }
    };
}

macro_rules! width {
    ($n:ty, $root:ty, $sqrt_rem:ident, $cbrt_rem:ident, $square:ident, $cube:ident) => {
        impl Width for $n {
            type Root = $root;
            fn full_sqrt(self) -> Root<$root, $n> {
                unsafe { raw::$sqrt_rem(self) }
            }
            fn full_cbrt(self) -> Root<$root, $n> {
                unsafe { raw::$cbrt_rem(self) }
            }
            fn rebuilt_square(root: $root, rest: $n) -> Result<$n, Refusal> {
                unsafe { raw::$square(root, rest) }.answer()
            }
            fn rebuilt_cube(root: $root, rest: $n) -> Result<$n, Refusal> {
                unsafe { raw::$cube(root, rest) }.answer()
            }
        }
    };
}

macro_rules! normalized {
    ($n:ty, $root:ty, $sqrt_rem:ident, $cbrt_rem:ident) => {
        impl Normalized for $n {
            fn normalized_sqrt(self) -> Result<Root<$root, $n>, Refusal> {
                unsafe { raw::$sqrt_rem(self) }.answer()
            }
            fn normalized_cbrt(self) -> Result<Root<$root, $n>, Refusal> {
                unsafe { raw::$cbrt_rem(self) }.answer()
            }
        }
    };
}

traits_of_dashu!(u8, u8, fregnaul_sqrt_u8, fregnaul_cbrt_u8);
traits_of_dashu!(u16, u8, fregnaul_sqrt_u16, fregnaul_cbrt_u16);
traits_of_dashu!(u32, u16, fregnaul_sqrt_u32, fregnaul_cbrt_u32);
traits_of_dashu!(u64, u32, fregnaul_sqrt_u64, fregnaul_cbrt_u64);

width!(u8, u8, fregnaul_sqrt_rem_u8, fregnaul_cbrt_rem_u8, fregnaul_rebuild_square_u8, fregnaul_rebuild_cube_u8);
width!(u16, u8, fregnaul_sqrt_rem_u16, fregnaul_cbrt_rem_u16, fregnaul_rebuild_square_u16, fregnaul_rebuild_cube_u16);
width!(u32, u16, fregnaul_sqrt_rem_u32, fregnaul_cbrt_rem_u32, fregnaul_rebuild_square_u32, fregnaul_rebuild_cube_u32);
width!(u64, u32, fregnaul_sqrt_rem_u64, fregnaul_cbrt_rem_u64, fregnaul_rebuild_square_u64, fregnaul_rebuild_cube_u64);

normalized!(u16, u8, fregnaul_normalized_sqrt_rem_u16, fregnaul_normalized_cbrt_rem_u16);
normalized!(u32, u16, fregnaul_normalized_sqrt_rem_u32, fregnaul_normalized_cbrt_rem_u32);
normalized!(u64, u32, fregnaul_normalized_sqrt_rem_u64, fregnaul_normalized_cbrt_rem_u64);
