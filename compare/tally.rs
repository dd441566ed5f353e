// How many answers of each call were compared, and how many of them were refusals.
use crate::starts::Kind;

#[derive(Clone, Copy)]
pub enum Call {
    Full,
    Alone,
    Normalised,
    Rebuild,
    Batch,
}

const CALLS: [(Call, &str); 5] = [
    (Call::Full, "root and rest, start and steps"),
    (Call::Alone, "root alone"),
    (Call::Normalised, "normalised"),
    (Call::Rebuild, "rebuild"),
    (Call::Batch, "batch"),
];
const WIDTHS: [u32; 4] = [8, 16, 32, 64];
const REFUSALS: usize = 7;

// by call, width, kind and refusal number
pub struct Tally([[[[u64; REFUSALS]; 2]; 4]; 5]);

impl Tally {
    pub fn new() -> Self {
        Tally([[[[0; REFUSALS]; 2]; 4]; 5])
    }

    #[inline]
    pub fn count(&mut self, call: Call, width: u32, kind: Kind, refusal: u8) {
        let place = (width.trailing_zeros() - 3) as usize;
        self.0[call as usize][place][kind as usize][refusal as usize] += 1;
    }

    pub fn add(&mut self, other: &Tally) {
        let ours = self.0.iter_mut().flatten().flatten().flatten();
        let theirs = other.0.iter().flatten().flatten().flatten();
        ours.zip(theirs).for_each(|(a, b)| *a += b);
    }

    pub fn print(&self) {
        println!("| call | type | kind | compared | of these refused |");
        println!("|---|---|---|---|---|");
        for (call, name) in CALLS {
            for (place, width) in WIDTHS.iter().enumerate() {
                for kind in [Kind::Square, Kind::Cube] {
                    let row = &self.0[call as usize][place][kind as usize];
                    if row.iter().sum::<u64>() > 0 {
                        print_row(name, *width, kind, row);
                    }
                }
            }
        }
    }

    pub fn total(&self) -> u64 {
        self.0.iter().flatten().flatten().flatten().sum()
    }
}

fn print_row(name: &str, width: u32, kind: Kind, row: &[u64; REFUSALS]) {
    let kind = format!("{kind:?}").to_lowercase();
    let refused: Vec<String> = (1..REFUSALS)
        .filter(|&number| row[number] > 0)
        .map(|number| format!("{} (no. {number})", grouped(row[number])))
        .collect();
    println!("| {name} | u{width} | {kind} | {} | {} |", grouped(row.iter().sum()), refused.join(", "));
}

// 1234567 as 1,234,567
pub fn grouped(n: u64) -> String {
    let digits = n.to_string();
    let mut text = String::new();
    for (i, digit) in digits.chars().enumerate() {
        if i > 0 && (digits.len() - i) % 3 == 0 {
            text.push(',');
        }
        text.push(digit);
    }
    text
}
