// Instructions and nanoseconds of the port, the unchanged Rust and the standard library (docs/SPEED.md):
//   speed list                     every call and route
//   speed count CALL ROUTE PASSES  that loop alone, for a tool that counts instructions
//   speed report COUNTS            times every loop and prints the table, with the counts of that file beside
#[path = "../examples/rust/src/raw.rs"]
mod raw;
#[path = "../oracle/starts.rs"]
mod starts;
#[path = "../oracle/values.rs"]
mod values;
include!("../oracle/traits.rs");

mod loops;
mod report;
mod routes;

use loops::{loops, Inputs};

fn list() {
    for one in loops() {
        println!("{} {}", one.call, one.route);
    }
}

fn count(call: &str, route: &str, passes: usize) {
    let all = loops();
    let found = all.iter().find(|one| one.call == call && one.route == route).expect("no such call and route");
    (found.run)(&Inputs::new(), passes);
}

fn main() {
    let arguments: Vec<String> = std::env::args().skip(1).collect();
    let arguments: Vec<&str> = arguments.iter().map(String::as_str).collect();
    match arguments[..] {
        ["list"] => list(),
        ["count", call, route, passes] => count(call, route, passes.parse().unwrap()),
        ["report", counts] => report::print(&std::fs::read_to_string(counts).unwrap()),
        _ => {
            eprintln!("usage: speed list | count CALL ROUTE PASSES | report COUNTS");
            std::process::exit(2);
        }
    }
}
