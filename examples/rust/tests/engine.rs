// An engine's file that was written for dashu-base: only the next line is ours.
use fregnaul::{CubicRoot, CubicRootRem, SquareRoot, SquareRootRem};

// The whole length of a vector, and what its square has beyond.
fn contact_length(x: u16, y: u16) -> (u16, u32) {
    let (x, y) = (x as u32, y as u32);
    (x * x + y * y).sqrt_rem()
}

#[test]
fn lengths_of_vectors() {
    assert_eq!(contact_length(3, 4), (5, 0));
    assert_eq!(contact_length(1, 1), (1, 1));
    assert_eq!(contact_length(30000, 40000), (50000, 0));
    assert_eq!(contact_length(46340, 46340), (65534, 86044));
}

#[test]
fn roots_with_rest() {
    assert_eq!(255u8.sqrt_rem(), (15, 30));
    assert_eq!(255u8.cbrt_rem(), (6, 39));
    assert_eq!(16900u16.sqrt_rem(), (130, 0));
    assert_eq!(32768u16.cbrt_rem(), (32, 0));
    assert_eq!(u32::MAX.sqrt_rem(), (65535, 131070));
    assert_eq!(1073741824u32.cbrt_rem(), (1024, 0));
    assert_eq!(u64::MAX.sqrt_rem(), (4294967295, 8589934590));
    assert_eq!(u64::MAX.cbrt_rem(), (2642245, 19889396695490));
}

#[test]
fn roots_alone() {
    assert_eq!((0u8.sqrt(), 256u16.sqrt(), 257u32.sqrt(), u64::MAX.sqrt()), (0, 16, 16, 4294967295));
    assert_eq!((0u8.cbrt(), 216u16.cbrt(), 217u32.cbrt(), u64::MAX.cbrt()), (0, 6, 6, 2642245));
}
