//! How far the answers of two programs lie apart, for each operation and output.
//!
//!     distance CASES LEFT RIGHT
//!
//! For each operation: the lines, those equal in every bit, and those whose whole numbers differ (a count, a flag, a
//! refusal). For each of its outputs: how many floats were compared, how many differ, how often one is a NaN or an
//! infinity and the other is not the same; and over the finite ones the largest distance relative to the larger of
//! the two and in units in the last place, each with both floats and the case.

mod streams;

use std::collections::BTreeMap;
use text::read_float;

#[derive(Default)]
struct Output {
    floats: u64,
    differ: u64,
    kinds: u64,
    relative: f64,
    relative_at: String,
    units: u64,
    units_at: String,
}

#[derive(Default)]
struct Count {
    lines: u64,
    equal: u64,
    wholes: u64,
    outputs: BTreeMap<&'static str, Output>,
}

fn place(x: f64) -> i128 {
    let size = i128::from(x.to_bits() & !(1 << 63));
    if x.is_sign_negative() {
        -size
    } else {
        size
    }
}

impl Output {
    fn add(&mut self, a: &str, b: &str, case: &str) {
        self.floats += 1;
        if a == b {
            return;
        }
        self.differ += 1;
        let (a, b) = (read_float(a).expect("a float"), read_float(b).expect("a float"));
        if !a.is_finite() || !b.is_finite() {
            self.kinds += 1;
            return;
        }
        let units = (place(a) - place(b)).unsigned_abs() as u64;
        let size = a.abs().max(b.abs());
        let relative = if size > 0.0 {
            ((a / size) - (b / size)).abs()
        } else {
            0.0
        };
        let told = || format!("{a:e} and {b:e} in\n      {case}");
        if units > self.units {
            self.units = units;
            self.units_at = told();
        }
        if relative > self.relative {
            self.relative = relative;
            self.relative_at = told();
        }
    }

    fn print(&self, name: &str) {
        println!(
            "  {name}: {} floats, {} differ, {} with a NaN or an infinity on one side",
            self.floats, self.differ, self.kinds
        );
        if self.units > 0 {
            println!(
                "    largest relative distance {:e}: {}",
                self.relative, self.relative_at
            );
            println!(
                "    largest distance in units in the last place {}: {}",
                self.units, self.units_at
            );
        }
    }
}

/// The outputs of an operation in the order of its answer, and whether each is a list. A whole number has no name.
fn outputs(operation: &str) -> &'static [(&'static str, bool)] {
    match operation {
        "exp" | "ln" | "sqrt" => &[("value", false)],
        "curve" => &[
            ("", false),
            ("mu", false),
            ("gradients", false),
            ("gradients", false),
            ("gradients", false),
            ("gradients", false),
        ],
        "start" => &[("", false), ("values", true)],
        "fit" => &[("", false), ("values", true), ("effects", true), ("rss", false)],
        "criterion" => &[
            ("", false),
            ("values", true),
            ("effects", true),
            ("criterion", false),
            ("sigma2", false),
        ],
        "search" => &[("", false), ("theta", false), ("criterion", false)],
        _ => &[],
    }
}

fn main() {
    let words: Vec<String> = std::env::args().skip(1).collect();
    let [cases, left, right] = &words[..] else {
        streams::fail("distance CASES LEFT RIGHT");
    };
    let mut counts: BTreeMap<String, Count> = BTreeMap::new();
    streams::run(cases, left, right, |_, one, other| {
        let one = std::str::from_utf8(one).expect("text");
        let other = std::str::from_utf8(other).expect("text");
        let operation = one.split(' ').next().unwrap_or("");
        if !counts.contains_key(operation) {
            counts.insert(operation.to_string(), Count::default());
        }
        let count = counts.get_mut(operation).expect("just put there");
        count.lines += 1;
        count.equal += u64::from(one == other);
        let (case, a) = one.split_once(" = ").expect("an answer");
        let (_, b) = other.split_once(" = ").expect("an answer");
        let is_float = |word: &str| word == "nan" || word.len() == 16;
        let mut pairs = a.split(' ').zip(b.split(' '));
        count.wholes += u64::from(pairs.clone().any(|(a, b)| !is_float(a) && a != b));
        for &(name, list) in outputs(operation) {
            let length = if list {
                pairs.next().map_or(0, |(a, _)| a.parse().expect("a length"))
            } else {
                1
            };
            for (a, b) in pairs.by_ref().take(length) {
                if !name.is_empty() {
                    count.outputs.entry(name).or_default().add(a, b, case);
                }
            }
        }
    });
    for (operation, count) in &counts {
        println!(
            "{operation}: {} lines, {} equal, {} with other whole numbers",
            count.lines, count.equal, count.wholes
        );
        for (name, output) in &count.outputs {
            output.print(name);
        }
    }
}
