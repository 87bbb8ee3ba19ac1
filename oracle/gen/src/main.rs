//! Prints cases, the same for the same seed.
//!
//!     gen SEED LINES OPERATION[=COUNT]..
//!     gen --realistic SEED LINES OPERATION[=COUNT]..
//!     gen --longest BYTES SEED LINES OPERATION[=COUNT]..
//!
//! LINES is the number of cases of each of exp, ln, sqrt and curve; the dearer operations get a share of it (see
//! `share`), and COUNT overrides both. Lists made by hand come first (inputs that tell readings apart, limits,
//! refusals and pairs of them), whole where they fill at most half of the count, else some of each, evenly; random
//! cases of each kind in turn fill the rest. `--realistic` prints only what a paint shop's readings give;
//! `--longest` leaves out longer lines.

mod fits;
mod leaves;
mod linear;
mod random;
mod starts;

use fits::Operation;
use random::Random;
use std::io::Write;
use text::{Case, Line};

fn share(operation: &str, lines: usize) -> usize {
    let of = match operation {
        "gh_order" => 100,
        "start" => 4,
        "fit" => 20,
        "criterion" => 20,
        "search" => 100,
        _ => 1,
    };
    lines.div_ceil(of)
}

fn by_hand(operation: &str) -> Vec<Vec<Case>> {
    match operation {
        "exp" => leaves::exp(),
        "ln" => leaves::ln(),
        "sqrt" => leaves::sqrt(),
        "gh_order" => leaves::gh_order(),
        "curve" => leaves::curve(),
        "start" => starts::start(),
        "fit" => fits::directed(Operation::Fit),
        "criterion" => fits::directed(Operation::Criterion),
        "search" => fits::directed(Operation::Search),
        "solve" => linear::solve(),
        "inverse" => linear::inverse(),
        "cholesky" => linear::cholesky(),
        "direction" => linear::direction(),
        other => fail(&format!("no operation '{other}'")),
    }
}

fn at_random(operation: &str, r: &mut Random, kind: usize) -> Case {
    match operation {
        "exp" => leaves::exp_random(r, kind),
        "ln" => leaves::ln_random(r, kind),
        "sqrt" => leaves::sqrt_random(r, kind),
        "gh_order" => leaves::gh_order_random(r, kind),
        "curve" => leaves::curve_random(r, kind),
        "start" => starts::start_random(r, kind),
        "fit" => fits::random(r, kind, Operation::Fit),
        "criterion" => fits::random(r, kind, Operation::Criterion),
        "solve" => linear::solve_random(r, kind),
        "inverse" => linear::inverse_random(r, kind),
        "cholesky" => linear::cholesky_random(r, kind),
        "direction" => linear::direction_random(r, kind),
        _ => fits::random(r, kind, Operation::Search),
    }
}

/// The kinds of random cases that a paint shop's readings give; none where every argument is ordinary.
fn realistic_kinds(operation: &str) -> &'static [usize] {
    match operation {
        "exp" => &[2, 3],
        "ln" => &[2],
        "sqrt" => &[2],
        "curve" => &[0],
        "start" => &[0, 9],
        "fit" | "criterion" | "search" => &fits::REALISTIC,
        _ => &[0],
    }
}

fn fail(message: &str) -> ! {
    eprintln!("gen: {message}");
    std::process::exit(2);
}

struct Output {
    out: std::io::BufWriter<std::io::StdoutLock<'static>>,
    longest: usize,
    line: Line,
}

impl Output {
    /// Whether the case was short enough.
    fn print(&mut self, case: &Case) -> bool {
        self.line.0.clear();
        self.line.case(case);
        if self.line.0.len() > self.longest {
            return false;
        }
        self.line.0.push('\n');
        if self.out.write_all(self.line.0.as_bytes()).is_err() {
            std::process::exit(0); // the reader has seen enough
        }
        true
    }
}

fn print_cases(operation: &str, count: usize, seed: u64, realistic: bool, output: &mut Output) {
    // Each operation has its own sequence, so that its cases do not depend on which others are asked for.
    let name: u64 = operation.bytes().fold(0, |n, byte| n * 131 + u64::from(byte));
    let mut r = Random::new(seed ^ name.wrapping_mul(0x9e37_79b9_7f4a_7c15));
    let mut printed = 0;
    let mut tried = 0;
    if !realistic {
        let mut lists = by_hand(operation);
        // The shortest first, so that what it leaves goes to the longer ones.
        lists.sort_by_key(Vec::len);
        let mut left = count.div_ceil(2);
        for (i, cases) in lists.iter().enumerate() {
            let wanted = cases.len().min(left.div_ceil(lists.len() - i));
            left -= wanted;
            for j in 0..wanted {
                // Evenly over the list, from a place that the seed sets.
                let at = (j * cases.len() + seed as usize % cases.len()) / wanted % cases.len();
                printed += usize::from(output.print(&cases[at]));
            }
        }
    }
    let kinds = realistic_kinds(operation);
    while printed < count && tried < 1000 + 100 * count {
        let kind = if realistic { kinds[tried % kinds.len()] } else { tried };
        tried += 1;
        printed += usize::from(output.print(&at_random(operation, &mut r, kind)));
    }
}

fn main() {
    let mut words: Vec<String> = std::env::args().skip(1).collect();
    let mut realistic = false;
    let mut longest = usize::MAX;
    while words.first().is_some_and(|word| word.starts_with("--")) {
        match words.remove(0).as_str() {
            "--realistic" => realistic = true,
            "--longest" if !words.is_empty() => {
                longest = words
                    .remove(0)
                    .parse()
                    .unwrap_or_else(|_| fail("--longest wants a number"))
            }
            other => fail(&format!("no option '{other}'")),
        }
    }
    if words.len() < 3 {
        fail("gen [--realistic] [--longest BYTES] SEED LINES OPERATION[=COUNT]..");
    }
    let number = |word: &str| {
        word.parse::<u64>()
            .unwrap_or_else(|_| fail(&format!("not a number: '{word}'")))
    };
    let seed = number(&words[0]);
    let lines = number(&words[1]) as usize;
    let mut output = Output {
        out: std::io::BufWriter::with_capacity(1 << 16, std::io::stdout().lock()),
        longest,
        line: Line::default(),
    };
    for word in &words[2..] {
        let (operation, count) = match word.split_once('=') {
            Some((operation, count)) => (operation, number(count) as usize),
            None => (word.as_str(), share(word, lines)),
        };
        print_cases(operation, count, seed, realistic, &mut output);
    }
    output.out.flush().ok();
}
