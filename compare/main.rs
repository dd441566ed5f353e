// Compares the archive's calls with the unchanged Rust in bulk (docs/COMPARISON.md).
#[path = "../examples/rust/src/raw.rs"]
mod raw;
#[path = "../oracle/starts.rs"]
mod starts;
#[path = "../oracle/values.rs"]
mod values;
include!("../oracle/traits.rs");

mod batches;
mod check;
mod jobs;
mod sources;
mod tally;
mod widths;

use jobs::Job;
use starts::Kind;
use widths::Width;

// How much of what cannot be tried in full is tried.
struct Plan {
    every_u32: bool,
    random: u64,
    powers: u64,
    pairs: u64,
    reach: u64,
    batches: u64,
}

const SHORT: Plan = Plan { every_u32: false, random: 400_000, powers: 100_000, pairs: 200_000, reach: 3, batches: 20_000 };
const USUAL: Plan =
    Plan { every_u32: false, random: 8_000_000, powers: 2_000_000, pairs: 5_000_000, reach: 100, batches: 1_000_000 };
const ALL: Plan = Plan { every_u32: true, ..USUAL };

fn sampled<W: Width>(kind: Kind, plan: &Plan) -> Vec<Job> {
    vec![
        sources::edges::<W>(kind, plan.reach),
        sources::powers::<W>(kind, plan.powers),
        sources::random::<W>(kind, plan.random),
    ]
}

fn jobs(plan: &Plan) -> Vec<Job> {
    let mut jobs = vec![sources::range::<u8>(Kind::Square, 256), sources::range::<u8>(Kind::Cube, 256)];
    for kind in [Kind::Square, Kind::Cube] {
        jobs.push(sources::range::<u16>(kind, 4096));
        jobs.push(sources::every_pair::<u8>(kind));
        jobs.push(sources::every_pair::<u16>(kind));
        jobs.push(sources::pairs::<u32>(kind, plan.pairs));
        jobs.push(sources::pairs::<u64>(kind, plan.pairs));
    }
    jobs.push(batches::batches(plan.batches));
    for kind in [Kind::Square, Kind::Cube] {
        jobs.extend(sampled::<u64>(kind, plan));
        if plan.every_u32 {
            jobs.push(sources::range::<u32>(kind, 1 << 18));
        } else {
            jobs.extend(sampled::<u32>(kind, plan));
        }
    }
    jobs
}

fn main() {
    let argument = std::env::args().nth(1);
    let plan = match argument.as_deref() {
        None => USUAL,
        Some("--short") => SHORT,
        Some("--all") => ALL,
        Some(_) => {
            eprintln!("usage: compare/run [--short | --all]");
            std::process::exit(2);
        }
    };
    let threads = std::thread::available_parallelism().map_or(1, |n| n.get());
    let mut tally = tally::Tally::new();
    let outcome = jobs::run(&jobs(&plan), threads, &mut tally);
    tally.print();
    let compared = tally::grouped(tally.total());
    match outcome {
        Ok(()) => println!("{compared} answers compared, 0 differ"),
        Err(difference) => {
            println!("{compared} answers compared, and one differs: {difference}");
            std::process::exit(1);
        }
    }
}
