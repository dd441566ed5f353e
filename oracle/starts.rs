// The starts S of the scope document, written from its formulas and from nothing else. All divisions
// round down; u128 holds every product.
use crate::ring::root::{t, u};

#[derive(Clone, Copy, PartialEq, Eq, Debug)]
pub enum Kind {
    Square,
    Cube,
}

impl Kind {
    pub fn pow(self, x: u128) -> u128 {
        match self {
            Kind::Square => x * x,
            Kind::Cube => x * x * x,
        }
    }
    pub fn degree(self) -> u32 {
        match self {
            Kind::Square => 2,
            Kind::Cube => 3,
        }
    }
}

fn hi(a: u128, b: u128) -> u128 {
    a * b >> 32
}

fn square16(n: u128) -> u128 {
    let r = 256 + t((n / 512 - 32) as usize);
    r * n / (1 << 16) - 1
}

fn cube16(n: u128) -> u128 {
    let (q, d) = if n >= 1 << 15 { (n / 4096, 16) } else { (n / 512, 4) };
    let r = 256 + u((q - 8) as usize);
    (r * r / d) * n / (1 << 24) - 1
}

fn square32(n: u128) -> u128 {
    let h = n / (1 << 16);
    let p = 256 + t((h / 512 - 32) as usize);
    let r = 2 * (96 * p - p * p * p * n / (1 << 43));
    let a = (2 * (r * h / (1 << 16))).min(65535) - 4;
    a + ((n - a * a) / (1 << 16)) * r / (1 << 16)
}

fn cube32(n: u128) -> u128 {
    let top = n >= 1 << 30;
    let g = if top { n / (1 << 19) } else { n / (1 << 16) };
    let p = 256 + u((g / 256 - 8) as usize);
    let t = 8192 - g * (p * p * p / (1 << 11)) / (1 << 16);
    let r = (p * t / 3) / 16;
    let r = if top { r / 2 } else { r } - 10;
    (r * (r * (n / (1 << 16)) / (1 << 16)) / (1 << 16)) / 4
}

fn square64(n: u128) -> u128 {
    let h = n / (1 << 32);
    let p = 256 + t((h / (1 << 25) - 32) as usize);
    let x = 3 * p * (1 << 21) - hi(h, 32 * p * p * p);
    let t = 3 * (1 << 28) - hi(x, hi(x, h));
    let r = 16 * hi(x, t);
    let a = 2 * hi(r, h) - 10;
    a + hi((n - a * a) / (1 << 32), r)
}

fn cube64(n: u128) -> u128 {
    let top = n >= 1 << 63;
    let g = if top { n / (1 << 35) } else { n / (1 << 32) };
    let p = 256 + u((g / (1 << 25) - 8) as usize);
    let x = p * (((1 << 25) - hi(g, p * p * p)) / 3);
    let t = (1 << 30) - hi(x, hi(x, hi(x, g)));
    let r = hi(x, t) / 3;
    let r = if top { r / 2 } else { r } - 1;
    hi(r, hi(r, n / (1 << 32)))
}

// The start of a normalised n: S, or S - 1 where the power of S is above n.
pub fn start(kind: Kind, width: u32, n: u128) -> u128 {
    let s = match (kind, width) {
        (Kind::Square, 16) => square16(n),
        (Kind::Cube, 16) => cube16(n),
        (Kind::Square, 32) => square32(n),
        (Kind::Cube, 32) => cube32(n),
        (Kind::Square, 64) => square64(n),
        (Kind::Cube, 64) => cube64(n),
        _ => unreachable!(),
    };
    if kind.pow(s) > n { s - 1 } else { s }
}

// The shift that brings n, which is not 0, to its top bits.
pub fn shift(kind: Kind, width: u32, n: u128) -> u32 {
    let zeros = n.leading_zeros() - (128 - width);
    zeros - zeros % kind.degree()
}

// Start and steps that a full call reports. `root_of` gives the root of the value brought to its
// top bits; a u8 starts at its root.
pub fn bill(kind: Kind, width: u32, n: u128, root: u128, root_of: impl Fn(u128) -> u128) -> (u128, u128) {
    if n == 0 {
        return (0, 0);
    }
    if width == 8 {
        return (0, root);
    }
    let raised = n << shift(kind, width, n);
    let start = start(kind, width, raised);
    (start, root_of(raised) - start)
}
