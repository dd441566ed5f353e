// The port and the Rust by width and kind, each call with its numbers widened to u64, so that one check serves all.
use crate::raw;
use crate::starts::Kind;
use crate::{CubicRoot, CubicRootRem, NormalizedRootRem, SquareRoot, SquareRootRem};

#[derive(Clone, Copy, Debug, PartialEq, Eq)]
pub struct Answer {
    pub root: u64,
    pub rest: u64,
    pub start: u64,
    pub steps: u64,
}

pub const ZERO: Answer = Answer { root: 0, rest: 0, start: 0, steps: 0 };

macro_rules! answer {
    ($a:expr) => {
        Answer { root: $a.root as u64, rest: $a.rest as u64, start: $a.start as u64, steps: $a.steps as u64 }
    };
}

pub trait Width: 'static {
    const BITS: u32;
    fn full(kind: Kind, n: u64) -> Answer;
    fn alone(kind: Kind, n: u64) -> u64;
    fn rebuild(kind: Kind, root: u64, rest: u64) -> (u8, u64);
    /// The refusal's number and the answer; none at u8, which has no normalised call.
    fn normalised(kind: Kind, n: u64) -> Option<(u8, Answer)>;
    fn rust_full(kind: Kind, n: u64) -> (u64, u64);
    fn rust_alone(kind: Kind, n: u64) -> u64;
    fn rust_normalised(kind: Kind, n: u64) -> (u64, u64);
}

pub fn top<W: Width>() -> u64 {
    u64::MAX >> (64 - W::BITS)
}

/// The greatest number that a root of this width's values can be handed in as.
pub fn top_root<W: Width>() -> u64 {
    u64::MAX >> (64 - (W::BITS / 2).max(8))
}

macro_rules! by_kind {
    ($kind:expr, $square:expr, $cube:expr) => {
        match $kind {
            Kind::Square => $square,
            Kind::Cube => $cube,
        }
    };
}

// Safety of the port's calls: none of them needs anything of its caller.
macro_rules! port {
    ($n:ty, $root:ty, $full2:ident, $full3:ident, $alone2:ident, $alone3:ident, $rebuild2:ident, $rebuild3:ident) => {
        const BITS: u32 = <$n>::BITS;
        fn full(kind: Kind, n: u64) -> Answer {
            let n = n as $n;
            by_kind!(kind, answer!(unsafe { raw::$full2(n) }), answer!(unsafe { raw::$full3(n) }))
        }
        fn alone(kind: Kind, n: u64) -> u64 {
            let n = n as $n;
            by_kind!(kind, unsafe { raw::$alone2(n) } as u64, unsafe { raw::$alone3(n) } as u64)
        }
        fn rebuild(kind: Kind, root: u64, rest: u64) -> (u8, u64) {
            let (root, rest) = (root as $root, rest as $n);
            let built = by_kind!(kind, unsafe { raw::$rebuild2(root, rest) }, unsafe { raw::$rebuild3(root, rest) });
            (built.refusal, built.value as u64)
        }
    };
}

macro_rules! rust {
    ($n:ty) => {
        fn rust_full(kind: Kind, n: u64) -> (u64, u64) {
            let n = n as $n;
            let (root, rest) = by_kind!(kind, n.sqrt_rem(), n.cbrt_rem());
            (root as u64, rest as u64)
        }
        fn rust_alone(kind: Kind, n: u64) -> u64 {
            let n = n as $n;
            by_kind!(kind, n.sqrt() as u64, n.cbrt() as u64)
        }
    };
}

macro_rules! normalised {
    ($n:ty, $square:ident, $cube:ident) => {
        fn normalised(kind: Kind, n: u64) -> Option<(u8, Answer)> {
            let n = n as $n;
            let a = by_kind!(kind, unsafe { raw::$square(n) }, unsafe { raw::$cube(n) });
            Some((a.refusal, answer!(a)))
        }
        fn rust_normalised(kind: Kind, n: u64) -> (u64, u64) {
            let n = n as $n;
            let (root, rest) = by_kind!(kind, n.normalized_sqrt_rem(), n.normalized_cbrt_rem());
            (root as u64, rest as u64)
        }
    };
}

impl Width for u8 {
    port!(
        u8, u8, fregnaul_sqrt_rem_u8, fregnaul_cbrt_rem_u8, fregnaul_sqrt_u8, fregnaul_cbrt_u8,
        fregnaul_rebuild_square_u8, fregnaul_rebuild_cube_u8
    );
    rust!(u8);
    fn normalised(_: Kind, _: u64) -> Option<(u8, Answer)> {
        None
    }
    fn rust_normalised(_: Kind, _: u64) -> (u64, u64) {
        unreachable!("u8 has no normalised call")
    }
}

impl Width for u16 {
    port!(
        u16, u8, fregnaul_sqrt_rem_u16, fregnaul_cbrt_rem_u16, fregnaul_sqrt_u16, fregnaul_cbrt_u16,
        fregnaul_rebuild_square_u16, fregnaul_rebuild_cube_u16
    );
    rust!(u16);
    normalised!(u16, fregnaul_normalized_sqrt_rem_u16, fregnaul_normalized_cbrt_rem_u16);
}

impl Width for u32 {
    port!(
        u32, u16, fregnaul_sqrt_rem_u32, fregnaul_cbrt_rem_u32, fregnaul_sqrt_u32, fregnaul_cbrt_u32,
        fregnaul_rebuild_square_u32, fregnaul_rebuild_cube_u32
    );
    rust!(u32);
    normalised!(u32, fregnaul_normalized_sqrt_rem_u32, fregnaul_normalized_cbrt_rem_u32);
}

impl Width for u64 {
    port!(
        u64, u32, fregnaul_sqrt_rem_u64, fregnaul_cbrt_rem_u64, fregnaul_sqrt_u64, fregnaul_cbrt_u64,
        fregnaul_rebuild_square_u64, fregnaul_rebuild_cube_u64
    );
    rust!(u64);
    normalised!(u64, fregnaul_normalized_sqrt_rem_u64, fregnaul_normalized_cbrt_rem_u64);
}
