//! Counts the questions of one kind that were put to both sides, and prints the answers that differ.

use std::fmt::Debug;
use std::time::{Duration, Instant};

/// How many differences of a kind are printed.
const SHOWN: u64 = 5;

/// How often work that takes long says where it is.
const PATIENCE: Duration = Duration::from_secs(5);

/// What was compared so far of one kind of question.
pub struct Tally {
    name: &'static str,
    compared: u64,
    differ: u64,
    started: Instant,
    told: Instant,
}

impl Tally {
    pub fn new(name: &'static str) -> Tally {
        let now = Instant::now();
        Tally { name, compared: 0, differ: 0, started: now, told: now }
    }

    /// Counts one question; it is put into words only where the answer is not the expected one.
    pub fn check<T: PartialEq + Debug>(&mut self, expected: T, answered: T, question: impl FnOnce() -> String) {
        self.compared += 1;
        if expected != answered {
            self.differ += 1;
            if self.differ <= SHOWN {
                println!("{}: {}\n  expected {expected:?}\n  answered {answered:?}", self.name, question());
            }
        }
        if self.compared.is_multiple_of(1 << 16) && self.told.elapsed() > PATIENCE {
            self.told = Instant::now();
            eprintln!("{}: {} compared, {}", self.name, grouped(self.compared), differing(self.differ));
        }
    }

    /// Prints the sum, with a remark on what was asked, and answers how many differ.
    pub fn sum_up(&self, remark: &str) -> u64 {
        let seconds = self.started.elapsed().as_secs_f64();
        println!(
            "{}: {} compared, {} ({seconds:.1} s): {remark}",
            self.name,
            grouped(self.compared),
            differing(self.differ)
        );
        self.differ
    }
}

pub fn differing(count: u64) -> String {
    if count == 1 {
        "1 differs".to_string()
    } else {
        format!("{} differ", grouped(count))
    }
}

/// A number with a comma before every three digits.
pub fn grouped(number: u64) -> String {
    let digits = number.to_string();
    let mut text = String::new();
    for (place, digit) in digits.char_indices() {
        if place > 0 && (digits.len() - place).is_multiple_of(3) {
            text.push(',');
        }
        text.push(digit);
    }
    text
}

/// As much of a long input as is worth printing.
pub fn beginning(bytes: &[u8]) -> &[u8] {
    &bytes[..bytes.len().min(600)]
}
