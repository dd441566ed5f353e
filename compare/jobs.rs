// Jobs in pieces over the machine's cores, with a line of progress every second.
use crate::check::Checked;
use crate::tally::{grouped, Tally};
use std::sync::atomic::{AtomicBool, AtomicU64, Ordering::Relaxed};
use std::sync::Mutex;
use std::thread;
use std::time::{Duration, Instant};

pub struct Job {
    pub name: String,
    pub pieces: u64,
    /// How many values or cases a piece has, for the progress.
    pub size: u64,
    pub work: Box<dyn Fn(u64, &mut Tally) -> Checked + Sync>,
}

struct Progress {
    name: Mutex<String>,
    done: AtomicU64,
    all: u64,
    over: AtomicBool,
    began: Instant,
}

impl Progress {
    fn show(&self) {
        let mut shown = Instant::now();
        while !self.over.load(Relaxed) {
            thread::sleep(Duration::from_millis(50));
            if shown.elapsed() >= Duration::from_secs(1) {
                shown = Instant::now();
                self.line();
            }
        }
    }

    fn line(&self) {
        let done = self.done.load(Relaxed);
        let share = 100.0 * done as f64 / self.all as f64;
        let seconds = self.began.elapsed().as_secs();
        let name = self.name.lock().unwrap();
        eprintln!("compare: {share:.1} %, {} of {}, {seconds} s: {name}", grouped(done), grouped(self.all));
    }
}

// One thread's share: the next piece, until there is none or a difference was found.
fn share(job: &Job, next: &AtomicU64, first: &Mutex<Option<String>>, progress: &Progress) -> Tally {
    let mut tally = Tally::new();
    while first.lock().unwrap().is_none() {
        let piece = next.fetch_add(1, Relaxed);
        if piece >= job.pieces {
            break;
        }
        if let Err(difference) = (job.work)(piece, &mut tally) {
            first.lock().unwrap().get_or_insert(difference);
        }
        progress.done.fetch_add(job.size, Relaxed);
    }
    tally
}

fn run_one(job: &Job, threads: usize, progress: &Progress, tally: &mut Tally) -> Checked {
    *progress.name.lock().unwrap() = job.name.clone();
    let (next, first) = (AtomicU64::new(0), Mutex::new(None));
    thread::scope(|scope| {
        let shares: Vec<_> = (0..threads).map(|_| scope.spawn(|| share(job, &next, &first, progress))).collect();
        shares.into_iter().for_each(|one| tally.add(&one.join().unwrap()));
    });
    first.into_inner().unwrap().map_or(Ok(()), Err)
}

// All jobs in turn; stops at the first difference.
pub fn run(jobs: &[Job], threads: usize, tally: &mut Tally) -> Checked {
    let progress = Progress {
        name: Mutex::new(String::new()),
        done: AtomicU64::new(0),
        all: jobs.iter().map(|job| job.pieces * job.size).sum(),
        over: AtomicBool::new(false),
        began: Instant::now(),
    };
    thread::scope(|scope| {
        scope.spawn(|| progress.show());
        let outcome = jobs.iter().try_for_each(|job| run_one(job, threads, &progress, tally));
        progress.over.store(true, Relaxed);
        outcome
    })
}
