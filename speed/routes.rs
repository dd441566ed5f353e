// One function a call and route, each under a C name and never inlined, so that every route pays one call as the archive does.
use crate::{CubicRoot, CubicRootRem, SquareRoot, SquareRootRem};

/// Root and rest, as the Rust's full calls hand them back.
#[repr(C)]
pub struct Pair<R, N> {
    pub root: R,
    pub rest: N,
}

macro_rules! full {
    ($name:ident, $n:ty, $root:ty, $value:ident, $body:expr) => {
        #[no_mangle]
        #[inline(never)]
        pub extern "C" fn $name($value: $n) -> Pair<$root, $n> {
            let (root, rest) = $body;
            Pair { root, rest }
        }
    };
}

macro_rules! alone {
    ($name:ident, $n:ty, $root:ty, $value:ident, $body:expr) => {
        #[no_mangle]
        #[inline(never)]
        pub extern "C" fn $name($value: $n) -> $root {
            $body
        }
    };
}

macro_rules! width {
    ($n:ty, $root:ty, $bare2:ident, $bare1:ident, $sqrt_rem:ident, $cbrt_rem:ident, $sqrt:ident, $cbrt:ident,
     $std_rem:ident, $std:ident) => {
        full!($bare2, $n, $root, n, (n as $root, n));
        alone!($bare1, $n, $root, n, !n as $root);
        full!($sqrt_rem, $n, $root, n, n.sqrt_rem());
        full!($cbrt_rem, $n, $root, n, n.cbrt_rem());
        alone!($sqrt, $n, $root, n, n.sqrt());
        alone!($cbrt, $n, $root, n, n.cbrt());
        full!($std_rem, $n, $root, n, {
            let root = n.isqrt();
            (root as $root, n - root * root)
        });
        alone!($std, $n, $root, n, n.isqrt() as $root);
    };
}

width!(u8, u8, bare_rem_u8, bare_u8, rust_sqrt_rem_u8, rust_cbrt_rem_u8, rust_sqrt_u8, rust_cbrt_u8, std_sqrt_rem_u8, std_sqrt_u8);
width!(
    u16, u8, bare_rem_u16, bare_u16, rust_sqrt_rem_u16, rust_cbrt_rem_u16, rust_sqrt_u16, rust_cbrt_u16, std_sqrt_rem_u16,
    std_sqrt_u16
);
width!(
    u32, u16, bare_rem_u32, bare_u32, rust_sqrt_rem_u32, rust_cbrt_rem_u32, rust_sqrt_u32, rust_cbrt_u32, std_sqrt_rem_u32,
    std_sqrt_u32
);
width!(
    u64, u32, bare_rem_u64, bare_u64, rust_sqrt_rem_u64, rust_cbrt_rem_u64, rust_sqrt_u64, rust_cbrt_u64, std_sqrt_rem_u64,
    std_sqrt_u64
);
