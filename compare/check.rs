// One value through every call of its width, and one pair through rebuilding.
use crate::starts::{bill, Kind};
use crate::tally::{Call, Tally};
use crate::widths::{top, Answer, Width, ZERO};

pub type Checked = Result<(), String>;

fn named<W: Width>(kind: Kind) -> String {
    format!("u{} {kind:?}", W::BITS)
}

// What a full call must answer: root and rest by the Rust, start and steps by the scope document's formulas.
fn full_expected<W: Width>(kind: Kind, n: u64) -> Answer {
    let (root, rest) = W::rust_full(kind, n);
    let root_of = |raised| W::rust_normalised(kind, raised as u64).0 as u128;
    let (start, steps) = bill(kind, W::BITS, n as u128, root as u128, root_of);
    Answer { root, rest, start: start as u64, steps: steps as u64 }
}

fn is_normalised<W: Width>(kind: Kind, n: u64) -> bool {
    n >> (W::BITS - kind.degree()) > 0
}

// A value that is not shifted has the start and steps of its full call.
fn normalised_expected<W: Width>(kind: Kind, n: u64, full: &Answer) -> (u8, Answer) {
    if !is_normalised::<W>(kind, n) {
        return (1, ZERO);
    }
    let (root, rest) = W::rust_normalised(kind, n);
    (0, Answer { root, rest, ..*full })
}

// The largest rest that a root can leave.
pub fn rest_limit(kind: Kind, root: u64) -> u128 {
    let r = root as u128;
    match kind {
        Kind::Square => 2 * r,
        Kind::Cube => 3 * r * r + 3 * r,
    }
}

pub fn rebuild_expected(kind: Kind, top: u64, root: u64, rest: u64) -> (u8, u64) {
    let value = kind.pow(root as u128) + rest as u128;
    if rest as u128 > rest_limit(kind, root) {
        (5, 0)
    } else if value > top as u128 {
        (6, 0)
    } else {
        (0, value as u64)
    }
}

pub fn pair<W: Width>(kind: Kind, root: u64, rest: u64, tally: &mut Tally) -> Checked {
    let (given, expected) = (W::rebuild(kind, root, rest), rebuild_expected(kind, top::<W>(), root, rest));
    if given != expected {
        let call = named::<W>(kind);
        return Err(format!("rebuild {call}, root {root}, rest {rest}: (refusal, value) {given:?}, expected {expected:?}"));
    }
    tally.count(Call::Rebuild, W::BITS, kind, given.0);
    Ok(())
}

fn normalised<W: Width>(kind: Kind, n: u64, full: &Answer, tally: &mut Tally) -> Checked {
    if let Some(given) = W::normalised(kind, n) {
        let expected = normalised_expected::<W>(kind, n, full);
        if given != expected {
            return Err(format!("normalised {} of {n}: {given:?}, expected {expected:?}", named::<W>(kind)));
        }
        tally.count(Call::Normalised, W::BITS, kind, given.0);
    }
    Ok(())
}

fn full_and_alone<W: Width>(kind: Kind, n: u64, expected: &Answer, tally: &mut Tally) -> Checked {
    let (given, alone, rust_alone) = (W::full(kind, n), W::alone(kind, n), W::rust_alone(kind, n));
    if given != *expected {
        return Err(format!("full {} of {n}: {given:?}, expected {expected:?}", named::<W>(kind)));
    }
    if alone != rust_alone || alone != expected.root {
        let call = named::<W>(kind);
        return Err(format!("root alone {call} of {n}: {alone}, the Rust's {rust_alone}, with rest {}", expected.root));
    }
    tally.count(Call::Full, W::BITS, kind, 0);
    tally.count(Call::Alone, W::BITS, kind, 0);
    Ok(())
}

// Every call on one value: its answer is rebuilt too, once as it is and once with a rest one above the limit.
pub fn value<W: Width>(kind: Kind, n: u64, tally: &mut Tally) -> Checked {
    let expected = full_expected::<W>(kind, n);
    full_and_alone::<W>(kind, n, &expected, tally)?;
    normalised::<W>(kind, n, &expected, tally)?;
    pair::<W>(kind, expected.root, expected.rest, tally)?;
    let beyond = rest_limit(kind, expected.root) + 1;
    if beyond <= top::<W>() as u128 {
        pair::<W>(kind, expected.root, beyond as u64, tally)?;
    }
    Ok(())
}
