// The table: for each call the instructions and nanoseconds of every route, without those of the bare loop.
use crate::loops::{loops, Inputs, INPUTS};
use std::collections::HashMap;
use std::time::Instant;

const ROUNDS: usize = 101;

type Figures = HashMap<(String, String), f64>;

// Lines of call, route and the instructions of one pass over the inputs.
fn instructions(counts: &str) -> Figures {
    let mut found = Figures::new();
    for line in counts.lines() {
        let words: Vec<&str> = line.split_whitespace().collect();
        let total: f64 = words[2].parse().unwrap();
        found.insert((words[0].to_string(), words[1].to_string()), total / INPUTS as f64);
    }
    found
}

// The best of many rounds, each of which goes through every loop, so that a busy moment of the machine spoils none.
fn nanoseconds() -> Figures {
    let (inputs, all) = (Inputs::new(), loops());
    let mut best = Figures::new();
    for _ in 0..ROUNDS {
        for one in &all {
            let began = Instant::now();
            (one.run)(&inputs, 1);
            let each = began.elapsed().as_nanos() as f64 / INPUTS as f64;
            let key = (one.call.to_string(), one.route.to_string());
            let least = best.entry(key).or_insert(each);
            *least = least.min(each);
        }
    }
    best
}

// What a route takes beyond the bare loop, if the call has that route.
fn beyond(figures: &Figures, call: &str, route: &str) -> Option<f64> {
    let of = |route: &str| figures.get(&(call.to_string(), route.to_string()));
    Some(of(route)? - of("bare")?)
}

fn cell(figure: Option<f64>) -> String {
    figure.map_or(String::new(), |figure| format!("{figure:.1}"))
}

fn row(call: &str, counts: &Figures, times: &Figures) -> String {
    let cells = |figures: &Figures| {
        let [port, rust, std] = ["port", "rust", "std"].map(|route| beyond(figures, call, route));
        let ratio = port.zip(rust).map_or(String::new(), |(port, rust)| format!("{:.2}", port / rust));
        format!("{} | {} | {ratio} | {}", cell(port), cell(rust), cell(std))
    };
    format!("| `{call}` | {} | {} |", cells(counts), cells(times))
}

pub fn print(counts: &str) {
    let (counts, times) = (instructions(counts), nanoseconds());
    println!("| call | instructions: port | Rust | ratio | `isqrt` | ns: port | Rust | ratio | `isqrt` |");
    println!("|---|---|---|---|---|---|---|---|---|");
    for one in loops().iter().filter(|one| one.route == "port") {
        println!("{}", row(one.call, &counts, &times));
    }
}
