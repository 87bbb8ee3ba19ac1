//! Nanoseconds of processor time per call. The sides run in turn, in bursts of a fraction of a millisecond where the
//! cases allow it, so that what else the machine does meets them alike.

use crate::cases::Row;
use crate::clock::time;
use crate::sides::{pass, Pass};
use std::time::{Duration, Instant};
use text::Case;

const BURST: Duration = Duration::from_micros(300);
const LEAST_ROUNDS: usize = 9;
const MOST_PASSES: u32 = 1 << 20;

/// One side's calls for a part of the cases.
struct Burst {
    pass: Pass,
    passes: u32,
}

impl Burst {
    /// With as many passes as fill a burst.
    fn new(pass: Pass) -> Self {
        let mut burst = Self { pass, passes: 1 };
        while burst.run() * f64::from(burst.passes) < BURST.as_nanos() as f64 / 2.0 && burst.passes < MOST_PASSES {
            burst.passes *= 2;
        }
        burst
    }

    /// Nanoseconds for the part's cases together.
    fn run(&mut self) -> f64 {
        let taken = time(|| {
            for _ in 0..self.passes {
                (self.pass)();
            }
        });
        taken.as_nanos() as f64 / f64::from(self.passes)
    }
}

/// What a side took. In a round each part of the cases has one burst of each side.
pub struct Taken {
    /// For each round, nanoseconds per call, the mean of the cases.
    rounds: Vec<f64>,
    /// The same, from the shortest burst of each part.
    pub shortest: f64,
}

/// The spread of a ratio over the rounds, in which both were measured one after the other.
pub struct Spread {
    pub lowest: f64,
    pub quartile: f64,
    pub median: f64,
    pub upper_quartile: f64,
}

impl Spread {
    pub fn of(over: &Taken, under: &Taken) -> Self {
        let mut ratios: Vec<f64> = over.rounds.iter().zip(&under.rounds).map(|(o, u)| o / u).collect();
        ratios.sort_by(f64::total_cmp);
        let last = ratios.len() - 1;
        Self {
            lowest: ratios[0],
            quartile: ratios[last / 4],
            median: ratios[last / 2],
            upper_quartile: ratios[last - last / 4],
        }
    }
}

/// How many cases one burst takes; one of them may take longer.
fn part_length(row: &Row) -> usize {
    let pass = pass("rust", row.operation, &row.cases).expect("the Rust has every operation");
    let fraction = BURST.as_secs_f64() / time(pass).as_secs_f64();
    ((row.cases.len() as f64 * fraction) as usize).clamp(1, row.cases.len())
}

/// One burst of each part on each side, each side first in turn: nanoseconds by side and part.
fn round_of_bursts(sides: &mut [Option<Vec<Burst>>], parts: usize, round: usize) -> Vec<Vec<f64>> {
    let mut taken = vec![Vec::new(); sides.len()];
    for part in 0..parts {
        for i in 0..sides.len() {
            let at = (round + i) % sides.len();
            if let Some(side) = &mut sides[at] {
                taken[at].push(side[part].run());
            }
        }
    }
    taken
}

/// What each of these sides takes; none where it does not have the operation.
pub fn measure(names: &[&str], row: &Row, seconds: f64) -> Vec<Option<Taken>> {
    let parts: Vec<&[Case]> = row.cases.chunks(part_length(row)).collect();
    let bursts = |name: &&str| -> Option<Vec<Burst>> {
        let burst = |part: &&[Case]| pass(name, row.operation, part).map(Burst::new);
        parts.iter().map(burst).collect()
    };
    let mut sides: Vec<Option<Vec<Burst>>> = names.iter().map(bursts).collect();
    let mut rounds: Vec<Vec<Vec<f64>>> = Vec::new();
    let begun = Instant::now();
    while rounds.len() < LEAST_ROUNDS || begun.elapsed().as_secs_f64() < seconds {
        rounds.push(round_of_bursts(&mut sides, parts.len(), rounds.len()));
    }
    let cases = row.cases.len() as f64;
    let taken = |(at, side): (usize, &Option<Vec<Burst>>)| {
        side.as_ref()?;
        let shortest = |part: usize| rounds.iter().map(|round| round[at][part]).fold(f64::INFINITY, f64::min);
        let mean = |round: &Vec<Vec<f64>>| round[at].iter().sum::<f64>() / cases;
        Some(Taken {
            shortest: (0..parts.len()).map(shortest).sum::<f64>() / cases,
            rounds: rounds.iter().map(mean).collect(),
        })
    };
    sides.iter().enumerate().map(taken).collect()
}
