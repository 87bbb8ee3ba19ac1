//! Cases of a named shape: so many groups of so many readings, on a curve, with one effect or two. The readings are
//! a paint shop's, made from the curve with noise, and the same on every run.

use std::fmt;
use text::{Case, Problem};

/// SplitMix64.
struct Random(u64);

impl Random {
    fn unit(&mut self) -> f64 {
        self.0 = self.0.wrapping_add(0x9e37_79b9_7f4a_7c15);
        let z = (self.0 ^ (self.0 >> 30)).wrapping_mul(0xbf58_476d_1ce4_e5b9);
        let z = (z ^ (z >> 27)).wrapping_mul(0x94d0_49bb_1331_11eb);
        ((z ^ (z >> 31)) >> 11) as f64 / (1u64 << 53) as f64
    }

    fn between(&mut self, low: f64, high: f64) -> f64 {
        low + (high - low) * self.unit()
    }

    /// Of mean 0 and variance 1, near enough to normal.
    fn noise(&mut self) -> f64 {
        (0..12).map(|_| self.unit()).sum::<f64>() - 6.0
    }
}

/// As a scale shows it.
fn hundredths(x: f64) -> f64 {
    (x * 100.0).round() / 100.0
}

/// The values that the readings are made with.
fn values_of(code: u64) -> &'static [f64] {
    match code {
        1 => &[200.0, 5.0, 1.25],
        2 => &[90.0, 20.0, -0.7],
        3 => &[40.0, 1.5],
        _ => &[2.0, 80.0, 5.0, 1.25],
    }
}

/// The upper asymptote first, then the value after it.
fn effects_of(code: u64, k: usize) -> Vec<u64> {
    let first = u64::from(code == 4);
    (first..first + k as u64).collect()
}

fn grams_at(code: u64, v: &[f64], dose: f64) -> f64 {
    let logistic = |middle: f64, scal: f64| 1.0 / (1.0 + fdlibm::exp((middle - dose) / scal));
    match code {
        1 => v[0] * logistic(v[1], v[2]),
        2 => v[0] - (v[0] - v[1]) * fdlibm::exp(-fdlibm::exp(v[2]) * dose),
        3 => v[0] * dose / (v[1] + dose),
        _ => v[0] + (v[1] - v[0]) * logistic(v[2], v[3]),
    }
}

#[derive(Clone, Copy)]
pub struct Shape {
    pub code: u64,
    pub groups: usize,
    pub readings_per_group: usize,
    /// How many curve values have an effect: 1 or 2.
    pub k: usize,
    pub max_rounds: u64,
}

impl fmt::Display for Shape {
    fn fmt(&self, f: &mut fmt::Formatter) -> fmt::Result {
        let effects = if self.k == 1 { "one effect" } else { "two effects" };
        let Self {
            code,
            groups,
            readings_per_group,
            ..
        } = self;
        write!(f, "{groups}×{readings_per_group}, {effects}, curve {code}")
    }
}

/// Sets of readings for one row, so that a row does not hang on one fit's number of rounds.
const SETS: u64 = 4;
/// A search makes 29 fits.
const SETS_OF_SEARCH: u64 = 2;

impl Shape {
    pub fn readings(&self) -> usize {
        self.groups * self.readings_per_group
    }

    fn random(&self, set: u64) -> Random {
        let numbers = [
            self.code,
            self.groups as u64,
            self.readings_per_group as u64,
            self.k as u64,
            set,
        ];
        Random(numbers.iter().fold(0, |seed, number| seed * 1000 + number))
    }

    /// The groups in turn, each with its own effects, and a start within a quarter of the values.
    fn problem(&self, set: u64) -> Problem {
        let mut r = self.random(set);
        let values = values_of(self.code);
        let p = values.len();
        let mut problem = Problem {
            code: self.code,
            group_count: self.groups as u64,
            effects: effects_of(self.code, self.k),
            starts: values.iter().map(|value| value * r.between(0.8, 1.25)).collect(),
            lower: vec![f64::NEG_INFINITY; p],
            upper: vec![f64::INFINITY; p],
            group_lower: vec![f64::NEG_INFINITY; p],
            group_upper: vec![f64::INFINITY; p],
            ..Problem::default()
        };
        for group in 0..self.groups as u64 {
            let mut own = values.to_vec();
            for &effect in &problem.effects {
                own[effect as usize] *= 1.0 + 0.03 * r.noise();
            }
            for _ in 0..self.readings_per_group {
                let dose = hundredths(r.between(0.0, 10.0));
                problem.doses.push(dose);
                problem
                    .grams
                    .push(hundredths(grams_at(self.code, &own, dose) + 0.5 * r.noise()));
                problem.groups.push(group);
            }
        }
        problem
    }

    fn theta(&self) -> Vec<f64> {
        match self.k {
            1 => vec![3.0],
            _ => vec![3.0, 0.1, 0.2],
        }
    }

    pub fn fits(&self) -> Vec<Case> {
        let case = |set| {
            let problem = self.problem(set);
            Case::Fit {
                n_values: problem.starts.len(),
                n_effects_out: self.groups * self.k,
                problem,
                theta: self.theta(),
                max_rounds: self.max_rounds,
            }
        };
        (0..SETS).map(case).collect()
    }

    /// By maximum likelihood.
    pub fn criteria(&self, order: u64) -> Vec<Case> {
        let case = |set| {
            let problem = self.problem(set);
            Case::Criterion {
                n_values: problem.starts.len(),
                n_effects_out: self.groups * self.k,
                problem,
                theta: self.theta(),
                max_rounds: self.max_rounds,
                reml: 0,
                n_agq: order,
            }
        };
        (0..SETS).map(case).collect()
    }

    /// By maximum likelihood, without quadrature.
    pub fn searches(&self) -> Vec<Case> {
        let case = |set| Case::Search {
            problem: self.problem(set),
            max_rounds: self.max_rounds,
            reml: 0,
            n_agq: 1,
            max_narrowings: 1000,
        };
        (0..SETS_OF_SEARCH).map(case).collect()
    }

    /// All readings of the shape together.
    pub fn starts(&self) -> Vec<Case> {
        let case = |set| {
            let problem = self.problem(set);
            Case::Start {
                code: self.code,
                n_values: problem.starts.len(),
                doses: problem.doses,
                grams: problem.grams,
            }
        };
        (0..SETS).map(case).collect()
    }
}
