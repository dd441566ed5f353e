// Which values the list holds: all of u8 and u16, and the edges and a seeded sample of u32 and u64.
use crate::starts::{shift, Kind};
use std::collections::BTreeSet;

const SAMPLE: u32 = 3000;

// The greatest a whose power is at most n, by bisection.
pub fn floor_root(kind: Kind, n: u128) -> u128 {
    let (mut low, mut high) = (0u128, 1u128 << 33);
    while high - low > 1 {
        let middle = (low + high) / 2;
        if kind.pow(middle) <= n { low = middle } else { high = middle }
    }
    low
}

// splitmix64: a fixed seed gives the same sample on every machine.
pub struct Sample(pub u64);

impl Sample {
    pub fn next(&mut self) -> u64 {
        self.0 = self.0.wrapping_add(0x9e37_79b9_7f4a_7c15);
        let mut z = self.0;
        z = (z ^ (z >> 30)).wrapping_mul(0xbf58_476d_1ce4_e5b9);
        z = (z ^ (z >> 27)).wrapping_mul(0x94d0_49bb_1331_11eb);
        z ^ (z >> 31)
    }
}

struct Values {
    kind: Kind,
    top: u128,
    found: BTreeSet<u64>,
}

impl Values {
    fn put(&mut self, n: u128) {
        if n <= self.top {
            self.found.insert(n as u64);
        }
    }
    fn neighbours(&mut self, n: u128) {
        for d in 0..5 {
            self.put((n + d).saturating_sub(2));
        }
    }
    // n, and the powers on either side of it, each with its neighbours
    fn edge(&mut self, n: u128) {
        self.neighbours(n);
        let root = floor_root(self.kind, n.min(self.top));
        self.neighbours(self.kind.pow(root));
        self.neighbours(self.kind.pow(root + 1));
    }
}

// The numbers at which a normalised value enters the next table entry.
pub fn entry_edges(kind: Kind, width: u32) -> Vec<u128> {
    let (first, last) = match kind {
        Kind::Square => (32u128, 128u128),
        Kind::Cube => (8, 64),
    };
    // the place of the lowest bit that the look-up reads
    let low = if (kind, width) == (Kind::Cube, 32) { 24 } else { width - 7 };
    let mut edges: Vec<u128> = (first..=last).map(|i| i << low).collect();
    if kind == Kind::Cube {
        // where the top bits are set the table is entered three bits further up
        edges.extend((first..=last).map(|i| i << (low + 3)));
    }
    edges
}

pub fn values(kind: Kind, width: u32) -> Vec<u64> {
    let top = (1u128 << width) - 1;
    if width <= 16 {
        return (0..=top as u64).collect();
    }
    let mut values = Values { kind, top, found: BTreeSet::new() };
    for n in 0..=3 {
        values.put(n);
    }
    for bit in 0..=width {
        values.neighbours(1 << bit);
    }
    for n in entry_edges(kind, width) {
        values.edge(n);
    }
    for s in 0..width {
        values.edge(top >> s);
        values.edge(1 << (width - 1 - s));
    }
    values.edge(top);
    let mut sample = Sample(0x0046_5245_474e_4155 + width as u64);
    for _ in 0..SAMPLE {
        let n = (sample.next() as u128) & top;
        values.put(n);
        // as many again with fewer bits, so that every shift has its share
        values.put(n >> (sample.next() % width as u64));
    }
    debug_assert!(values.found.iter().all(|&n| n == 0 || shift(kind, width, n as u128) < width));
    values.found.into_iter().collect()
}
