//! Compares the answers of two programs on the same cases, bit for bit.
//!
//!     compare CASES LEFT RIGHT
//!
//! Each word is a command: one that prints cases, two that answer them. Prints progress while it runs, then how many
//! lines agree, and the first that does not with both answers. Ends with status 1 on any difference, where a
//! program fails, and where there were no cases.

mod streams;

use std::collections::BTreeMap;
use std::time::{Duration, Instant};

fn operation(line: &[u8]) -> String {
    let word = line.split(|&byte| byte == b' ').next().unwrap_or(&[]);
    String::from_utf8_lossy(word).into_owned()
}

fn main() {
    let words: Vec<String> = std::env::args().skip(1).collect();
    let [cases, left, right] = &words[..] else {
        streams::fail("compare CASES LEFT RIGHT");
    };
    let begun = Instant::now();
    let mut shown = begun;
    let mut agreed = 0u64;
    let mut first: Option<(u64, String, String)> = None;
    let mut counts: BTreeMap<String, (u64, u64)> = BTreeMap::new();
    let compared = streams::run(cases, left, right, |number, one, other| {
        let count = counts.entry(operation(one)).or_default();
        count.1 += 1;
        if one == other {
            agreed += 1;
            count.0 += 1;
        } else if first.is_none() {
            let text = |line: &[u8]| String::from_utf8_lossy(line).into_owned();
            println!("line {number} differs:\n  {}\n  {}", text(one), text(other));
            first = Some((number, text(one), text(other)));
        }
        if shown.elapsed() > Duration::from_secs(2) {
            shown = Instant::now();
            println!(
                "{:6.1} s: {agreed} of {number} lines agree, now at {}",
                begun.elapsed().as_secs_f64(),
                operation(one)
            );
        }
    });
    for (operation, (agreed, compared)) in &counts {
        println!("{operation}: {agreed} of {compared} lines agree");
    }
    println!(
        "{agreed} of {compared} lines agree, in {:.1} s",
        begun.elapsed().as_secs_f64()
    );
    if let Some((number, one, other)) = first {
        streams::fail(&format!(
            "the first difference is line {number}:\n  {left}:\n    {one}\n  {right}:\n    {other}"
        ));
    }
    if compared == 0 {
        streams::fail("there were no cases");
    }
}
