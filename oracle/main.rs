// Writes the list of the Rust's answers to standard output, as runs of 32 bytes (oracle/README.md); asked for `tables`, its tables.
mod starts;
mod values;
include!("traits.rs");

use starts::{bill, Kind};
use std::io::Write;

// One answer of the unchanged Rust, with the start and the steps of the scope document beside it.
#[derive(Clone, Copy)]
struct Answer {
    value: u64,
    rest: u64,
    root: u32,
    start: u32,
    steps: u8,
}

// The Rust's root and remainder at a width, by both of its ways: sqrt and sqrt_rem agree or we stop.
fn rust(kind: Kind, width: u32, n: u64) -> (u64, u64) {
    macro_rules! at {
        ($t:ty) => {{
            let n = n as $t;
            let (root, rest) = match kind {
                Kind::Square => n.sqrt_rem(),
                Kind::Cube => n.cbrt_rem(),
            };
            let alone = match kind {
                Kind::Square => n.sqrt(),
                Kind::Cube => n.cbrt(),
            };
            assert!(alone == root, "root alone differs at {n}");
            (root as u64, rest as u64)
        }};
    }
    match width {
        8 => at!(u8),
        16 => at!(u16),
        32 => at!(u32),
        _ => at!(u64),
    }
}

// The root of a normalised value, as the Rust's normalised call gives it.
fn normalised(kind: Kind, width: u32, n: u128) -> u128 {
    macro_rules! at {
        ($t:ty) => {
            match kind {
                Kind::Square => (n as $t).normalized_sqrt_rem().0 as u128,
                Kind::Cube => (n as $t).normalized_cbrt_rem().0 as u128,
            }
        };
    }
    match width {
        16 => at!(u16),
        32 => at!(u32),
        _ => at!(u64),
    }
}

fn answer(kind: Kind, width: u32, n: u64) -> Answer {
    let (root, rest) = rust(kind, width, n);
    let (start, steps) = bill(kind, width, n as u128, root as u128, |m| normalised(kind, width, m));
    Answer { value: n, rest, root: root as u32, start: start as u32, steps: steps as u8 }
}

// b goes on where a run of `count` values from a stands: one more value, one more rest, all else equal.
fn goes_on(a: &Answer, count: u16, b: &Answer) -> bool {
    let c = count as u64;
    count < u16::MAX
        && b.value == a.value + c
        && b.rest == a.rest + c
        && (b.root, b.start, b.steps) == (a.root, a.start, a.steps)
}

fn write_run(out: &mut Vec<u8>, kind: Kind, width: u32, a: &Answer, count: u16) {
    out.extend(a.value.to_le_bytes());
    out.extend(a.rest.to_le_bytes());
    out.extend(a.root.to_le_bytes());
    out.extend(a.start.to_le_bytes());
    out.extend(count.to_le_bytes());
    out.extend([kind.degree() as u8, width as u8, a.steps, 0, 0, 0]);
}

// The Rust's two tables, an entry to a line.
fn write_tables() {
    for (name, table) in ring::root::TABLES {
        for (i, entry) in table.iter().enumerate() {
            println!("{name}[{i}] = {entry}");
        }
    }
}

fn main() {
    if std::env::args().nth(1).as_deref() == Some("tables") {
        return write_tables();
    }
    let mut out = Vec::new();
    for width in [8, 16, 32, 64] {
        for kind in [Kind::Square, Kind::Cube] {
            let values = values::values(kind, width);
            let mut run: Option<(Answer, u16)> = None;
            for &n in &values {
                let b = answer(kind, width, n);
                run = Some(match run {
                    Some((a, count)) if goes_on(&a, count, &b) => (a, count + 1),
                    Some((a, count)) => {
                        write_run(&mut out, kind, width, &a, count);
                        (b, 1)
                    }
                    None => (b, 1),
                });
            }
            let (a, count) = run.unwrap();
            write_run(&mut out, kind, width, &a, count);
            eprintln!("u{width} {kind:?}: {} answers", values.len());
        }
    }
    std::io::stdout().write_all(&out).unwrap();
}
