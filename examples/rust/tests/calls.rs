// The calls that keep start and steps, the refusals, and the batch's untouched places.
use fregnaul::{
    cbrt_rem, normalized_cbrt_rem, normalized_sqrt_rem, rebuild_cube, rebuild_square, sqrt_batch, sqrt_rem, Done, Refusal,
    Root, Width,
};

// root, rest, start, steps
fn parts<R, N>(answer: Root<R, N>) -> (R, N, R, R) {
    (answer.root, answer.rest, answer.start, answer.steps)
}

#[test]
fn start_and_steps() {
    assert_eq!(parts(sqrt_rem(16900u16)), (130, 0, 127, 3));
    assert_eq!(parts(sqrt_rem(65535u16)), (255, 510, 255, 0));
    assert_eq!(parts(cbrt_rem(32768u16)), (32, 0, 29, 3));
    assert_eq!(parts(cbrt_rem(8192u16)), (20, 192, 18, 2));
    assert_eq!(parts(sqrt_rem(1073741824u32)), (32768, 0, 32766, 2));
    assert_eq!(parts(sqrt_rem(4294770688u32)), (65534, 65532, 65534, 0));
    assert_eq!(parts(cbrt_rem(1073741824u32)), (1024, 0, 1021, 3));
    assert_eq!(parts(cbrt_rem(9223372036854775808u64)), (2097152, 0, 2097147, 5));
    assert_eq!(parts(cbrt_rem(10376279628611328125u64)), (2181125, 0, 2181119, 6));
    assert_eq!(parts(sqrt_rem(0u64)), (0, 0, 0, 0));
    assert_eq!(parts(sqrt_rem(255u8)), (15, 30, 0, 15));
    assert_eq!(parts(cbrt_rem(255u8)), (6, 39, 0, 6));
}

#[test]
fn normalised_from_the_bound_on() {
    assert_eq!(normalized_sqrt_rem(16383u16), Err(Refusal::NotNormalized));
    assert_eq!(normalized_sqrt_rem(16384u16).map(parts).map(|p| (p.0, p.1)), Ok((128, 0)));
    assert_eq!(normalized_cbrt_rem(8191u16), Err(Refusal::NotNormalized));
    assert_eq!(normalized_cbrt_rem(8192u16).map(parts), Ok((20, 192, 18, 2)));
    assert_eq!(normalized_sqrt_rem((1u32 << 30) - 1), Err(Refusal::NotNormalized));
    assert_eq!(normalized_sqrt_rem(1u32 << 30).map(parts), Ok((32768, 0, 32766, 2)));
    assert_eq!(normalized_cbrt_rem((1u32 << 29) - 1), Err(Refusal::NotNormalized));
    assert_eq!(normalized_cbrt_rem(1u32 << 30).map(parts), Ok((1024, 0, 1021, 3)));
    assert_eq!(normalized_sqrt_rem((1u64 << 62) - 1), Err(Refusal::NotNormalized));
    assert_eq!(normalized_sqrt_rem(u64::MAX).map(|a| a.root), Ok(4294967295));
    assert_eq!(normalized_cbrt_rem((1u64 << 61) - 1), Err(Refusal::NotNormalized));
    assert_eq!(normalized_cbrt_rem(1u64 << 63).map(parts), Ok((2097152, 0, 2097147, 5)));
}

// A value comes back from its own answers.
fn comes_back<N: Width + Copy + PartialEq + std::fmt::Debug>(n: N) {
    let (square, cube) = (sqrt_rem(n), cbrt_rem(n));
    assert_eq!(rebuild_square(square.root, square.rest), Ok(n));
    assert_eq!(rebuild_cube(cube.root, cube.rest), Ok(n));
}

#[test]
fn rebuilding() {
    (0..=u8::MAX).for_each(comes_back);
    (0..=u16::MAX).for_each(comes_back);
    (0..64).for_each(|bit| comes_back(u64::MAX >> bit));
    (0..32).for_each(|bit| comes_back(u32::MAX >> bit));
    assert_eq!(rebuild_cube(1625u16, 3951670u32), Ok(4294967295));
    assert_eq!(rebuild_cube(1625u16, 3951671u32), Err(Refusal::ValueBeyond));
    assert_eq!(rebuild_cube(1625u16, 7926751u32), Err(Refusal::RestBeyond));
    assert_eq!(rebuild_square(255u8, 511u16), Err(Refusal::RestBeyond));
    assert_eq!(rebuild_square(16u8, 0u8), Err(Refusal::ValueBeyond));
    assert_eq!(rebuild_cube(2642246u32, 0u64), Err(Refusal::ValueBeyond));
}

#[test]
fn batch_under_a_budget() {
    let values = [0, 1, 4, 4294967295];
    let cases = [(0, 1, 0, [0, 7, 7, 7]), (3, 2, 2, [0, 1, 7, 7]), (4, 4, 4, [0, 1, 2, 65535])];
    for (budget, done, spent, after) in cases {
        let mut roots = [7; 4];
        assert_eq!(sqrt_batch(&values, &mut roots, 0, 4, budget), Ok(Done { done, spent }));
        assert_eq!(roots, after);
    }
}

#[test]
fn batch_leaves_other_places() {
    let mut roots = [9; 5];
    assert_eq!(sqrt_batch(&[100; 5], &mut roots, 1, 2, u64::MAX).map(|d| d.done), Ok(2));
    assert_eq!(roots, [9, 10, 10, 9, 9]);
    assert_eq!(sqrt_batch(&[100; 5], &mut roots, 5, 0, 0), Ok(Done { done: 0, spent: 0 }));
    assert_eq!(sqrt_batch(&[], &mut [], 0, 0, 0), Ok(Done { done: 0, spent: 0 }));
    assert_eq!(roots, [9, 10, 10, 9, 9]);
}

#[test]
fn batch_refusals_in_order() {
    let values = [100; 3];
    for (first, count, refusal) in [
        (4, 1, Refusal::FirstBeyond),
        (usize::MAX, usize::MAX, Refusal::FirstBeyond),
        (2, 2, Refusal::CountBeyond),
        (1, usize::MAX, Refusal::CountBeyond),
        (1, 1, Refusal::LengthsDiffer),
    ] {
        let mut roots = [9; 4];
        assert_eq!(sqrt_batch(&values, &mut roots, first, count, u64::MAX), Err(refusal));
        assert_eq!(roots, [9; 4]);
    }
}

#[test]
fn a_refusal_says_its_number() {
    assert_eq!(Refusal::ValueBeyond.number(), 6);
    assert!(Refusal::NotNormalized.to_string().starts_with("refusal 1: "));
}
