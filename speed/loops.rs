// The driver: for each call and route a loop over the same inputs, which differs in the function called alone.
use crate::raw;
use crate::routes;
use crate::values::Sample;
use std::hint::black_box;

pub const INPUTS: usize = 100_000;

pub struct Inputs {
    u8s: Vec<u8>,
    u16s: Vec<u16>,
    u32s: Vec<u32>,
    u64s: Vec<u64>,
}

impl Inputs {
    // All values of a type are as likely as another, from a fixed seed.
    pub fn new() -> Self {
        let mut sample = Sample(0x7370_6565_64);
        let all: Vec<u64> = (0..INPUTS).map(|_| sample.next()).collect();
        Inputs {
            u8s: all.iter().map(|&n| n as u8).collect(),
            u16s: all.iter().map(|&n| n as u16).collect(),
            u32s: all.iter().map(|&n| n as u32).collect(),
            u64s: all,
        }
    }
}

/// One loop: as many passes over the inputs as asked for.
pub struct Loop {
    pub call: &'static str,
    pub route: &'static str,
    pub run: fn(&Inputs, usize) -> u64,
}

fn passes<T: Copy>(inputs: &[T], count: usize, call: impl Fn(T) -> u64) -> u64 {
    let mut sum = 0u64;
    for _ in 0..count {
        for &n in black_box(inputs) {
            sum = sum.wrapping_add(call(n));
        }
    }
    black_box(sum)
}

macro_rules! full {
    ($loops:ident, $call:literal, $inputs:ident, $($route:literal $function:path),*) => {
        $($loops.push(Loop { call: $call, route: $route, run: |inputs, count| {
            passes(&inputs.$inputs, count, |n| {
                #[allow(unused_unsafe)]
                let a = unsafe { $function(n) };
                a.root as u64 ^ a.rest as u64
            })
        }});)*
    };
}

macro_rules! alone {
    ($loops:ident, $call:literal, $inputs:ident, $($route:literal $function:path),*) => {
        $($loops.push(Loop { call: $call, route: $route, run: |inputs, count| {
            #[allow(unused_unsafe)]
            passes(&inputs.$inputs, count, |n| unsafe { $function(n) } as u64)
        }});)*
    };
}

fn squares(loops: &mut Vec<Loop>) {
    full!(loops, "sqrt_rem_u8", u8s, "bare" routes::bare_rem_u8, "port" raw::fregnaul_sqrt_rem_u8,
        "rust" routes::rust_sqrt_rem_u8, "std" routes::std_sqrt_rem_u8);
    full!(loops, "sqrt_rem_u16", u16s, "bare" routes::bare_rem_u16, "port" raw::fregnaul_sqrt_rem_u16,
        "rust" routes::rust_sqrt_rem_u16, "std" routes::std_sqrt_rem_u16);
    full!(loops, "sqrt_rem_u32", u32s, "bare" routes::bare_rem_u32, "port" raw::fregnaul_sqrt_rem_u32,
        "rust" routes::rust_sqrt_rem_u32, "std" routes::std_sqrt_rem_u32);
    full!(loops, "sqrt_rem_u64", u64s, "bare" routes::bare_rem_u64, "port" raw::fregnaul_sqrt_rem_u64,
        "rust" routes::rust_sqrt_rem_u64, "std" routes::std_sqrt_rem_u64);
    alone!(loops, "sqrt_u8", u8s, "bare" routes::bare_u8, "port" raw::fregnaul_sqrt_u8,
        "rust" routes::rust_sqrt_u8, "std" routes::std_sqrt_u8);
    alone!(loops, "sqrt_u16", u16s, "bare" routes::bare_u16, "port" raw::fregnaul_sqrt_u16,
        "rust" routes::rust_sqrt_u16, "std" routes::std_sqrt_u16);
    alone!(loops, "sqrt_u32", u32s, "bare" routes::bare_u32, "port" raw::fregnaul_sqrt_u32,
        "rust" routes::rust_sqrt_u32, "std" routes::std_sqrt_u32);
    alone!(loops, "sqrt_u64", u64s, "bare" routes::bare_u64, "port" raw::fregnaul_sqrt_u64,
        "rust" routes::rust_sqrt_u64, "std" routes::std_sqrt_u64);
}

fn cubes(loops: &mut Vec<Loop>) {
    full!(loops, "cbrt_rem_u8", u8s, "bare" routes::bare_rem_u8, "port" raw::fregnaul_cbrt_rem_u8,
        "rust" routes::rust_cbrt_rem_u8);
    full!(loops, "cbrt_rem_u16", u16s, "bare" routes::bare_rem_u16, "port" raw::fregnaul_cbrt_rem_u16,
        "rust" routes::rust_cbrt_rem_u16);
    full!(loops, "cbrt_rem_u32", u32s, "bare" routes::bare_rem_u32, "port" raw::fregnaul_cbrt_rem_u32,
        "rust" routes::rust_cbrt_rem_u32);
    full!(loops, "cbrt_rem_u64", u64s, "bare" routes::bare_rem_u64, "port" raw::fregnaul_cbrt_rem_u64,
        "rust" routes::rust_cbrt_rem_u64);
    alone!(loops, "cbrt_u8", u8s, "bare" routes::bare_u8, "port" raw::fregnaul_cbrt_u8, "rust" routes::rust_cbrt_u8);
    alone!(loops, "cbrt_u16", u16s, "bare" routes::bare_u16, "port" raw::fregnaul_cbrt_u16, "rust" routes::rust_cbrt_u16);
    alone!(loops, "cbrt_u32", u32s, "bare" routes::bare_u32, "port" raw::fregnaul_cbrt_u32, "rust" routes::rust_cbrt_u32);
    alone!(loops, "cbrt_u64", u64s, "bare" routes::bare_u64, "port" raw::fregnaul_cbrt_u64, "rust" routes::rust_cbrt_u64);
}

pub fn loops() -> Vec<Loop> {
    let mut loops = Vec::new();
    squares(&mut loops);
    cubes(&mut loops);
    loops
}
