// The unchanged Rust files, with the few trait definitions that they expect around them.
// FREGNAUL_RUST names the folder that holds ring/root.rs and math/root.rs.

pub trait DivRem<Rhs = Self> {
    type OutputDiv;
    type OutputRem;
    fn div_rem(self, rhs: Rhs) -> (Self::OutputDiv, Self::OutputRem);
}

macro_rules! impl_div_rem {
    ($($t:ty)*) => {$(
        impl DivRem for $t {
            type OutputDiv = $t;
            type OutputRem = $t;
            fn div_rem(self, rhs: $t) -> ($t, $t) {
                (self / rhs, self % rhs)
            }
        }
    )*};
}
impl_div_rem!(u8 u16 u32 u64 u128);

pub mod ring {
    pub trait SquareRootRem {
        type Output;
        fn sqrt_rem(&self) -> (Self::Output, Self);
    }
    pub trait CubicRootRem {
        type Output;
        fn cbrt_rem(&self) -> (Self::Output, Self);
    }
    pub mod root {
        include!(concat!(env!("FREGNAUL_RUST"), "/ring/root.rs"));

        // The tables are private to this file; document 01's formulas name them T and U.
        pub fn t(i: usize) -> u128 {
            RSQRT_TAB[i] as u128
        }
        pub fn u(i: usize) -> u128 {
            RCBRT_TAB[i] as u128
        }
        pub const TABLES: [(&str, &[u8]); 2] = [("RSQRT_TAB", &RSQRT_TAB), ("RCBRT_TAB", &RCBRT_TAB)];
    }
}
pub mod math {
    pub trait SquareRoot {
        type Output;
        fn sqrt(&self) -> Self::Output;
    }
    pub trait CubicRoot {
        type Output;
        fn cbrt(&self) -> Self::Output;
    }
    mod root {
        include!(concat!(env!("FREGNAUL_RUST"), "/math/root.rs"));
    }
}
pub use math::{CubicRoot, SquareRoot};
pub(crate) use ring::root::NormalizedRootRem;
pub use ring::{CubicRootRem, SquareRootRem};
