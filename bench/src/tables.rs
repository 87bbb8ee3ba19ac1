//! The tables of docs/PERFORMANCE.md, in Markdown.

use crate::cases::{self, Row};
use crate::fail;
use crate::instructions;
use crate::sides::{difference, SIDES};
use crate::times::{self, Spread, Taken};
use text::Answer;

/// What one row costs on each side, in the order of `SIDES`.
struct Costs {
    times: Vec<Option<Taken>>,
    instructions: Vec<Option<f64>>,
}

struct Bench<'a> {
    seconds: f64,
    counted: bool,
    /// Rows whose label has this are measured.
    having: &'a str,
}

impl Bench<'_> {
    fn chosen(&self, rows: impl IntoIterator<Item = Row>) -> Vec<Row> {
        rows.into_iter().filter(|row| row.label.contains(self.having)).collect()
    }

    /// Both sides answer every case once first; a difference in any bit ends the run.
    fn costs(&self, row: &Row) -> Costs {
        if let Some(difference) = difference(row.operation, &row.cases) {
            fail(&difference);
        }
        let mut costs = Costs {
            times: SIDES.iter().map(|_| None).collect(),
            instructions: vec![None; SIDES.len()],
        };
        if self.seconds > 0.0 {
            costs.times = times::measure(&SIDES, row, self.seconds);
        }
        if self.counted {
            costs.instructions = instructions::per_call(&SIDES, row);
        }
        costs
    }
}

/// With three digits or more, and commas; a dash where there is none.
fn number(value: Option<f64>) -> String {
    let Some(value) = value else {
        return "-".to_string();
    };
    if value < 99.95 {
        return format!("{value:.1}");
    }
    let digits = format!("{value:.0}");
    let commas = |(i, digit): (usize, char)| {
        let comma = i > 0 && (digits.len() - i).is_multiple_of(3);
        [comma.then_some(','), Some(digit)].into_iter().flatten()
    };
    digits.chars().enumerate().flat_map(commas).collect()
}

fn ratio(value: Option<f64>) -> String {
    value.map_or("-".to_string(), |value| format!("{value:.2}"))
}

impl Costs {
    fn at(side: &str) -> usize {
        SIDES.iter().position(|name| *name == side).expect("it is one of them")
    }

    fn time(&self, side: &str) -> String {
        number(self.times[Self::at(side)].as_ref().map(|taken| taken.shortest))
    }

    fn instructions(&self, side: &str) -> String {
        number(self.instructions[Self::at(side)])
    }

    fn spread(&self, over: &str, under: &str) -> Option<Spread> {
        let [over, under] = [over, under].map(|side| self.times[Self::at(side)].as_ref());
        let (over, under) = over.zip(under)?;
        Some(Spread::of(over, under))
    }

    /// Median, quartiles and lowest.
    fn times_ratio(&self, over: &str, under: &str) -> [String; 3] {
        let Some(spread) = self.spread(over, under) else {
            return ["-"; 3].map(String::from);
        };
        let quartiles = format!("{:.2} to {:.2}", spread.quartile, spread.upper_quartile);
        [ratio(Some(spread.median)), quartiles, ratio(Some(spread.lowest))]
    }

    fn instructions_ratio(&self, over: &str, under: &str) -> String {
        let [over, under] = [over, under].map(|side| self.instructions[Self::at(side)]);
        ratio(over.zip(under).map(|(over, under)| over / under))
    }

    /// The columns of a table that compares the archive with the Rust.
    fn columns(&self) -> String {
        let [median, quartiles, lowest] = self.times_ratio("rust", "archive");
        [
            self.time("rust"),
            self.time("archive"),
            median,
            quartiles,
            lowest,
            self.instructions("rust"),
            self.instructions("archive"),
            self.instructions_ratio("rust", "archive"),
        ]
        .join(" | ")
    }

    /// The columns of the table that has the other implementations.
    fn others(&self) -> String {
        let [median, quartiles, _] = self.times_ratio("archive", "c");
        [
            self.time("archive"),
            self.time("c"),
            self.time("unreplaced"),
            self.time("empty"),
            median,
            quartiles,
            self.instructions("archive"),
            self.instructions("c"),
            self.instructions("unreplaced"),
        ]
        .join(" | ")
    }
}

const COLUMNS: &str =
    "Rust, ns | archive, ns | Rust/archive, time | quartiles | lowest | Rust, instr. | archive, instr. | Rust/archive, instr.";

fn heading(columns: &str) {
    let rule: String = columns.split('|').skip(1).map(|_| "---:|").collect();
    println!("| {columns} |\n|---|{rule}");
}

fn main_table(bench: &Bench) -> Vec<(Row, Costs)> {
    println!("### The archive beside the Rust\n");
    heading(&format!("operation | {COLUMNS}"));
    let measured = |row: Row| {
        let costs = bench.costs(&row);
        println!("| {} | {} |", row.label, costs.columns());
        (row, costs)
    };
    let rows = bench.chosen(cases::read().into_iter().chain(cases::shaped()));
    rows.into_iter().map(measured).collect()
}

/// Of the rows that the unreplaced Rust has.
fn others_table(rows: &[(Row, Costs)]) {
    println!("\n### Beside C and the unreplaced Rust\n");
    heading(
        "operation | archive, ns | C, ns | unreplaced, ns | loop alone, ns | archive/C, time | quartiles \
         | archive, instr. | C, instr. | unreplaced, instr.",
    );
    let at = Costs::at("unreplaced");
    for (row, costs) in rows {
        if costs.times[at].is_some() || costs.instructions[at].is_some() {
            println!("| {} | {} |", row.label, costs.others());
        }
    }
}

/// The mean rounds and trials of a row's fits.
fn rounds_and_trials(row: &Row) -> String {
    let mut sums = [0, 0];
    for case in &row.cases {
        if let Answer::Fit { rounds, trials, .. } = replaced::operations::answer(case) {
            sums = [sums[0] + rounds, sums[1] + trials];
        }
    }
    let means = sums.map(|sum| number(Some(sum as f64 / row.cases.len() as f64)));
    means.join(" | ")
}

fn growth_tables(bench: &Bench) {
    println!("\n### Growth\n");
    heading(&format!("operation | rounds | trials | {COLUMNS}"));
    for row in bench.chosen(cases::by_readings().into_iter().chain(cases::by_groups())) {
        let columns = bench.costs(&row).columns();
        println!("| {} | {} | {columns} |", row.label, rounds_and_trials(&row));
    }
    println!();
    heading(&format!("operation | {COLUMNS}"));
    for row in bench.chosen(cases::by_order()) {
        println!("| {} | {} |", row.label, bench.costs(&row).columns());
    }
}

/// Of the rows that a goal is for, those that fall short, with the median of the times' ratio.
fn goal(text: &str, rows: &[(Row, Costs)], sides: [&str; 2], operations: &[&str], met: impl Fn(f64) -> bool) {
    let judged = |(row, costs): &(Row, Costs)| {
        let median = costs.spread(sides[0], sides[1])?.median;
        let short = (!met(median)).then(|| format!("{} ({median:.2})", row.label));
        operations.contains(&row.operation).then_some(short)
    };
    let judged: Vec<Option<String>> = rows.iter().filter_map(judged).collect();
    let of = judged.len();
    let short: Vec<String> = judged.into_iter().flatten().collect();
    let named = if short.is_empty() { "" } else { "; not " };
    println!(
        "- {text}: {} of {of} rows{named}{}.",
        of - short.len(),
        short.join("; ")
    );
}

fn goals(rows: &[(Row, Costs)]) {
    println!("\n### Goals\n");
    let both = ["rust", "archive"];
    let all: Vec<&str> = rows.iter().map(|(row, _)| row.operation).collect();
    goal("No slower than the Rust", rows, both, &all, |median| median >= 1.0);
    goal(
        "Three times as fast as the Rust",
        rows,
        both,
        &["fit", "search"],
        |median| median >= 3.0,
    );
    goal("At most 1.5 times C's time", rows, ["archive", "c"], &all, |median| {
        median <= 1.5
    });
}

pub fn print(seconds: f64, having: &str) {
    let bench = Bench {
        seconds,
        counted: instructions::available(),
        having,
    };
    if !bench.counted {
        eprintln!("bench: no valgrind, so no instructions");
    }
    let rows = main_table(&bench);
    others_table(&rows);
    if seconds > 0.0 {
        goals(&rows);
    }
    growth_tables(&bench);
}
