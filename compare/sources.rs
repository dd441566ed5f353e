// Which values a job takes: a range, random ones of every length, those around powers, those around edges.
use crate::check::{pair, rest_limit, value};
use crate::jobs::Job;
use crate::starts::Kind;
use crate::values::{entry_edges, floor_root, Sample};
use crate::widths::{top, top_root, Width};

const PIECE: u64 = 20_000;

// Another sample for each job and piece, the same on every run and machine.
pub fn sample(salt: u64, piece: u64) -> Sample {
    let mut seed = Sample(salt << 40 ^ piece);
    Sample(seed.next())
}

fn salt<W: Width>(kind: Kind, source: u64) -> u64 {
    source << 12 | (W::BITS as u64) << 4 | kind as u64
}

fn name<W: Width>(kind: Kind, what: &str) -> String {
    format!("u{} {kind:?}, {what}", W::BITS)
}

// Any number of at most `bits` bits, every length as likely as another.
pub fn of_any_length(sample: &mut Sample, bits: u32) -> u64 {
    let random = sample.next() >> (64 - bits);
    random >> (sample.next() % bits as u64)
}

pub fn range<W: Width>(kind: Kind, size: u64) -> Job {
    let pieces = (top::<W>() / size) + 1;
    let work = move |piece: u64, tally: &mut _| {
        let first = piece * size;
        (first..first + size).try_for_each(|n| value::<W>(kind, n, tally))
    };
    Job { name: name::<W>(kind, "every value"), pieces, size, work: Box::new(work) }
}

pub fn random<W: Width>(kind: Kind, count: u64) -> Job {
    let work = move |piece: u64, tally: &mut _| {
        let mut sample = sample(salt::<W>(kind, 1), piece);
        (0..PIECE / 2).try_for_each(|_| {
            value::<W>(kind, sample.next() & top::<W>(), tally)?;
            value::<W>(kind, of_any_length(&mut sample, W::BITS), tally)
        })
    };
    Job { name: name::<W>(kind, "random, and random of every length"), pieces: count / PIECE, size: PIECE, work: Box::new(work) }
}

// A power and its two neighbours on either side, of a root of any length.
pub fn powers<W: Width>(kind: Kind, count: u64) -> Job {
    let greatest = floor_root(kind, top::<W>() as u128) as u64;
    let work = move |piece: u64, tally: &mut _| {
        let mut sample = sample(salt::<W>(kind, 2), piece);
        (0..PIECE / 5).try_for_each(|_| {
            let root = of_any_length(&mut sample, 64 - greatest.leading_zeros()).min(greatest);
            let power = kind.pow(root as u128) as u64;
            around(power, 2, top::<W>()).try_for_each(|n| value::<W>(kind, n, tally))
        })
    };
    Job { name: name::<W>(kind, "around powers"), pieces: count / PIECE, size: PIECE, work: Box::new(work) }
}

fn around(n: u64, reach: u64, top: u64) -> impl Iterator<Item = u64> {
    n.saturating_sub(reach)..=n.saturating_add(reach).min(top)
}

// Where a table entry or a shift begins, at every shift, the powers on either side of that, and both ends.
fn all_edges<W: Width>(kind: Kind) -> Vec<u64> {
    let top = top::<W>() as u128;
    let mut edges = vec![0, top];
    for shift in 0..W::BITS / kind.degree() {
        edges.extend(entry_edges(kind, W::BITS).iter().map(|edge| edge >> (shift * kind.degree())));
    }
    edges.extend((0..W::BITS).map(|bit| 1 << bit));
    edges.retain(|&edge| edge <= top);
    let roots: Vec<u128> = edges.iter().map(|&edge| floor_root(kind, edge)).collect();
    edges.extend(roots.iter().flat_map(|&root| [kind.pow(root), kind.pow(root + 1)]));
    let mut edges: Vec<u64> = edges.into_iter().filter(|&edge| edge <= top).map(|edge| edge as u64).collect();
    edges.sort_unstable();
    edges.dedup();
    edges
}

pub fn edges<W: Width>(kind: Kind, reach: u64) -> Job {
    let edges = all_edges::<W>(kind);
    let pieces = edges.len() as u64;
    let work = move |piece: u64, tally: &mut _| {
        around(edges[piece as usize], reach, top::<W>()).try_for_each(|n| value::<W>(kind, n, tally))
    };
    Job { name: name::<W>(kind, "around edges"), pieces, size: 2 * reach + 1, work: Box::new(work) }
}

// Rebuilding every pair of a root and a rest that the types can hold.
pub fn every_pair<W: Width>(kind: Kind) -> Job {
    let work = move |root: u64, tally: &mut _| (0..=top::<W>()).try_for_each(|rest| pair::<W>(kind, root, rest, tally));
    let (pieces, size) = (top_root::<W>() + 1, top::<W>() + 1);
    Job { name: name::<W>(kind, "rebuilding every pair"), pieces, size, work: Box::new(work) }
}

// A root that need not be anyone's root: of any length, or beside the greatest that is.
fn any_root<W: Width>(kind: Kind, sample: &mut Sample) -> u64 {
    match sample.next() % 4 {
        0 => floor_root(kind, top::<W>() as u128) as u64 + 2 - sample.next() % 5,
        1 => top_root::<W>() - sample.next() % 5,
        _ => of_any_length(sample, W::BITS / 2),
    }
    .min(top_root::<W>())
}

// A rest beside the root's limit, beside the one that makes the greatest value, or any.
fn any_rest<W: Width>(kind: Kind, root: u64, sample: &mut Sample) -> u64 {
    let top = top::<W>() as u128;
    let beside = match sample.next() % 3 {
        0 => rest_limit(kind, root),
        1 => top.saturating_sub(kind.pow(root as u128)),
        _ => of_any_length(sample, W::BITS) as u128,
    };
    (beside + sample.next() as u128 % 5).saturating_sub(2).min(top) as u64
}

pub fn pairs<W: Width>(kind: Kind, count: u64) -> Job {
    let work = move |piece: u64, tally: &mut _| {
        let mut sample = sample(salt::<W>(kind, 3), piece);
        (0..PIECE).try_for_each(|_| {
            let root = any_root::<W>(kind, &mut sample);
            pair::<W>(kind, root, any_rest::<W>(kind, root, &mut sample), tally)
        })
    };
    Job { name: name::<W>(kind, "rebuilding pairs"), pieces: count / PIECE, size: PIECE, work: Box::new(work) }
}
