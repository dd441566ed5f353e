// The batch against a plain loop over the Rust: refusals in order, done, spent, and every place of the roots and beside them.
use crate::check::Checked;
use crate::jobs::Job;
use crate::raw;
use crate::sources::{of_any_length, sample};
use crate::starts::{bill, Kind};
use crate::tally::{Call, Tally};
use crate::values::Sample;
use crate::{NormalizedRootRem, SquareRootRem};

const PIECE: u64 = 500;
// Places before and after the lent roots, which no call may touch.
const MARGIN: usize = 4;

#[derive(Debug)]
struct Case {
    values: Vec<u32>,
    roots: usize,
    first: usize,
    count: usize,
    budget: u64,
}

// Root and cost of one value: the Rust's root, and the steps that the formulas give.
fn root_and_cost(n: u32) -> (u16, u64) {
    let (root, _) = n.sqrt_rem();
    let root_of = |raised| (raised as u32).normalized_sqrt_rem().0 as u128;
    let (_, steps) = bill(Kind::Square, 32, n as u128, root as u128, root_of);
    (root, steps as u64)
}

fn refusal(case: &Case) -> u8 {
    if case.first > case.values.len() {
        2
    } else if case.count > case.values.len() - case.first {
        3
    } else if case.values.len() != case.roots {
        4
    } else {
        0
    }
}

// Refusal, done and spent; writes the roots that a batch must write.
fn expected(case: &Case, roots: &mut [u16]) -> (u8, usize, u64) {
    let refusal = refusal(case);
    let (mut done, mut spent) = (0, 0);
    while refusal == 0 && done < case.count {
        let (root, cost) = root_and_cost(case.values[case.first + done]);
        if spent + cost > case.budget {
            break;
        }
        roots[case.first + done] = root;
        spent += cost;
        done += 1;
    }
    (refusal, done, spent)
}

fn given(case: &Case, roots: &mut [u16]) -> (u8, usize, u64) {
    let values = &case.values;
    // Safety: each pointer goes with its own slice's length.
    let a = unsafe {
        raw::fregnaul_sqrt_batch_u32(
            values.as_ptr(),
            values.len(),
            roots.as_mut_ptr(),
            roots.len(),
            case.first,
            case.count,
            case.budget,
        )
    };
    (a.refusal, a.done, a.spent)
}

// A place within the length, or now and then one beyond it.
fn place(sample: &mut Sample, length: usize) -> usize {
    match sample.next() % 16 {
        0 => length + 1 + (sample.next() % 3) as usize,
        1 => usize::MAX - (sample.next() % 3) as usize,
        2 => length,
        _ => (sample.next() % (length as u64 + 1)) as usize,
    }
}

fn any_budget(sample: &mut Sample, count: usize) -> u64 {
    match sample.next() % 8 {
        0 => 0,
        1 => u64::MAX,
        // a value costs 0 to 2 steps, so that most of these end within the part
        _ => sample.next() % (count.min(1000) as u64 * 2 + 2),
    }
}

fn any_case(sample: &mut Sample) -> Case {
    let length = match sample.next() % 64 {
        0 => sample.next() % 2000,
        _ => sample.next() % 40,
    } as usize;
    let values = (0..length).map(|_| of_any_length(sample, 32) as u32).collect();
    let first = place(sample, length);
    let count = place(sample, length.saturating_sub(first));
    let roots = if sample.next() % 8 == 0 { place(sample, length).min(length + 3) } else { length };
    Case { values, roots, first, count, budget: any_budget(sample, count) }
}

fn check(sample: &mut Sample, tally: &mut Tally) -> Checked {
    let case = any_case(sample);
    let mut before: Vec<u16> = (0..case.roots + 2 * MARGIN).map(|_| sample.next() as u16).collect();
    let mut after = before.clone();
    let lent = MARGIN..MARGIN + case.roots;
    let given = given(&case, &mut after[lent.clone()]);
    let expected = expected(&case, &mut before[lent]);
    if given != expected || after != before {
        return Err(format!(
            "batch {case:?}: (refusal, done, spent) {given:?}, expected {expected:?}; \
             roots with {MARGIN} places on either side {after:?}, expected {before:?}"
        ));
    }
    tally.count(Call::Batch, 32, Kind::Square, given.0);
    Ok(())
}

pub fn batches(count: u64) -> Job {
    let work = |piece: u64, tally: &mut _| {
        let mut sample = sample(4, piece);
        (0..PIECE).try_for_each(|_| check(&mut sample, tally))
    };
    Job { name: "batches".to_string(), pieces: count / PIECE, size: PIECE, work: Box::new(work) }
}
