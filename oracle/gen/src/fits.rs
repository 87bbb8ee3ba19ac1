//! Cases of fit, criterion and search, which share a problem.

use crate::leaves::{realistic_values, P};
use crate::random::{moved, Random};
use crate::starts::{grams_at, hundredths};
use std::collections::HashSet;
use text::{Case, Line, Problem};

const INF: f64 = f64::INFINITY;

#[derive(Clone, Copy, PartialEq)]
pub enum Operation {
    Fit,
    Criterion,
    Search,
}

/// The arguments of all three; each takes its own.
#[derive(Clone)]
pub struct Call {
    pub problem: Problem,
    theta: Vec<f64>,
    max_rounds: u64,
    reml: u64,
    n_agq: u64,
    max_narrowings: u64,
    n_values: usize,
    n_effects_out: usize,
}

impl Call {
    /// One group, no finite bounds, theta 1, outputs of the right lengths.
    fn new(code: u64, readings: &[(f64, f64)], effects: &[u64], starts: &[f64]) -> Self {
        let p = starts.len();
        let theta = if effects.len() == 2 {
            vec![1.0, 0.0, 1.0]
        } else {
            vec![1.0]
        };
        Call {
            problem: Problem::one_group(code, readings, effects, starts),
            theta,
            max_rounds: 1000,
            reml: 0,
            n_agq: 0,
            max_narrowings: 1000,
            n_values: p,
            n_effects_out: effects.len(),
        }
    }

    fn groups(mut self, groups: &[u64], count: u64) -> Self {
        self.problem.groups = groups.to_vec();
        self.problem.group_count = count;
        self.n_effects_out = count as usize * self.problem.effects.len();
        self
    }

    fn theta(mut self, theta: &[f64]) -> Self {
        self.theta = theta.to_vec();
        self
    }

    fn rounds(mut self, rounds: u64) -> Self {
        self.max_rounds = rounds;
        self
    }

    fn with(mut self, change: impl Fn(&mut Call)) -> Self {
        change(&mut self);
        self
    }

    pub fn case(&self, operation: Operation) -> Case {
        let c = self.clone();
        match operation {
            Operation::Fit => Case::Fit {
                problem: c.problem,
                theta: c.theta,
                max_rounds: c.max_rounds,
                n_values: c.n_values,
                n_effects_out: c.n_effects_out,
            },
            Operation::Criterion => Case::Criterion {
                problem: c.problem,
                theta: c.theta,
                max_rounds: c.max_rounds,
                reml: c.reml,
                n_agq: c.n_agq,
                n_values: c.n_values,
                n_effects_out: c.n_effects_out,
            },
            Operation::Search => Case::Search {
                problem: c.problem,
                max_rounds: c.max_rounds,
                reml: c.reml,
                n_agq: c.n_agq,
                max_narrowings: c.max_narrowings,
            },
        }
    }
}

/// The Orange data of R (tree, age, circumference), a logistic curve.
fn orange() -> Call {
    const AGES: [f64; 7] = [118.0, 484.0, 664.0, 1004.0, 1231.0, 1372.0, 1582.0];
    const TREES: [[f64; 7]; 5] = [
        [30.0, 58.0, 87.0, 115.0, 120.0, 142.0, 145.0],
        [33.0, 69.0, 111.0, 156.0, 172.0, 203.0, 203.0],
        [30.0, 51.0, 75.0, 108.0, 115.0, 139.0, 140.0],
        [32.0, 62.0, 112.0, 167.0, 179.0, 209.0, 214.0],
        [30.0, 49.0, 81.0, 125.0, 142.0, 174.0, 177.0],
    ];
    let readings: Vec<(f64, f64)> = TREES
        .iter()
        .flat_map(|tree| AGES.iter().copied().zip(tree.iter().copied()))
        .collect();
    let groups: Vec<u64> = (0..35).map(|i| i / 7).collect();
    Call::new(1, &readings, &[0], &[200.0, 725.0, 350.0]).groups(&groups, 5)
}

/// The inputs that tell the readings of document 01 apart, and the traps' own.
fn separating() -> Vec<Call> {
    let three = [(1.0, 4.0), (2.0, 5.3), (3.0, 6.0)];
    let mut out = vec![
        orange(),
        orange().theta(&[31.5]),
        orange().with(|c| {
            c.problem.effects = vec![0, 1];
            c.theta = vec![4.6, 3.8, 3.0];
            c.n_effects_out = 10;
        }),
        // An accepted curve value that is infinite.
        Call::new(1, &[(1.5e308, 0.0)], &[2], &[1e308, 1.5e308, 5e307]).rounds(3),
        // A proposal below 1e-10 after lost attempts.
        Call::new(2, &[(4.0, 7.0), (2.0, -3.0), (2.0, 0.0)], &[2], &[2.0, 8.0, 1.0]),
        // A zero pivot after lost attempts.
        Call::new(4, &[(-1.0, 0.0)], &[1], &[1e27, 1.0, 2.0, -1.0]),
        // A determinant without a factor.
        Call::new(3, &[(0.0, 1.0)], &[0], &[8.0, 0.0]),
        // Quadrature without an inverse.
        Call::new(3, &[(2.0, 2.0)], &[0, 1], &[3.0, 1.0])
            .theta(&[1e7, 0.0, 1e6])
            .rounds(1),
        // The floor before the projection in a trial.
        Call::new(1, &[(1.0, 2.0), (2.0, 4.0), (3.0, 6.0)], &[0], &[8.0, 2.0, -1.0])
            .with(|c| c.problem.upper[2] = 1e-7),
        // An empty group in the penalty.
        Call::new(3, &three, &[0], &[1.0, 1.0])
            .groups(&[0, 0, 0], 2)
            .theta(&[2.0])
            .with(|c| {
                c.problem.group_lower[0] = 3.0;
                c.problem.group_upper[0] = 7.0;
            }),
        // Pivots of one size, a lower row and the diagonal.
        Call::new(3, &[(1.0, 2e200), (1.0, -1e200)], &[0], &[1.0, 1.0]),
        Call::new(3, &[(1.0, 2e200), (1.0, -1e200)], &[1], &[1.0, 1.0]).rounds(1),
        Call::new(3, &[(1.0, 2e200), (1.0, -1e200)], &[0, 1], &[1.0, 1.0]),
        // The start adjusted, then projected.
        Call::new(1, &three, &[0], &[8.0, 2.0, 0.0]).with(|c| {
            c.problem.lower[2] = 1.0;
            c.problem.upper[2] = 10.0;
        }),
        Call::new(4, &three, &[1], &[0.0, 8.0, 2.0, 0.0]).with(|c| {
            c.problem.lower[3] = 1.0;
            c.problem.upper[3] = 10.0;
        }),
        // Effects are not projected at the start.
        Call::new(3, &three, &[0], &[1.0, 1.0])
            .rounds(0)
            .with(|c| c.problem.group_lower[0] = 3.0),
        // Floored theta.
        Call::new(3, &three, &[0], &[8.0, 1.0]).theta(&[-2.0]),
        // A covariance that overflows.
        Call::new(3, &three, &[0, 1], &[8.0, 1.0]).theta(&[1e200, 0.0, 1e200]),
        // Bounds of zero, of both signs, are equal.
        Call::new(3, &three, &[0], &[-0.0, 1.0]).with(|c| {
            c.problem.lower[0] = 0.0;
            c.problem.upper[0] = -0.0;
        }),
        // Rules that end a fit, one by one.
        Call::new(3, &[(0.0, 1.0)], &[1], &[3.0, 5.0]),
        Call::new(1, &[(0.0, -1.0)], &[2], &[5.0, 5.0, -1.0]),
        Call::new(1, &[(0.0, 2.0)], &[1], &[0.0, 3.0, 5.0]).rounds(1),
        Call::new(4, &[(0.0, 4.0)], &[2], &[-1.0, 9.0, -2.0, -3.0]),
        Call::new(3, &[(2.0, 3.0)], &[1], &[3.0, -2.0]),
    ];
    // Quadrature that ends at a later group keeps nothing of those before it; a curvature of 2^-52 ends it.
    for theta in [1e9, 1e7, 67108863.0, 67108864.0, 67108865.0] {
        out.push(
            Call::new(3, &[(1.0, 4.0), (2.0, 5.3), (3.0, 6.0), (0.0, 0.1)], &[0], &[8.0, 1.0])
                .groups(&[0, 0, 0, 1], 2)
                .theta(&[theta])
                .rounds(5),
        );
    }
    // The same by a NaN at a node: exp overflows and meets the dose 0, in one effect and in two.
    let zero_last = [(1.0, 5.0), (2.0, 6.5), (4.0, 7.0), (0.0, 2.0)];
    for groups in [[0, 0, 0, 1], [1, 1, 1, 0]] {
        let call = Call::new(2, &zero_last, &[2], &[8.0, 2.0, 0.0])
            .groups(&groups, 2)
            .rounds(5);
        out.push(call.clone().theta(&[1000.0]));
        out.push(call.with(|c| {
            c.problem.effects = vec![2, 0];
            c.theta = vec![1000.0, 0.0, 1.0];
            c.n_effects_out = 4;
        }));
    }
    // A sum of squares that is a NaN, with each way to sigma2.
    for effects in [&[0][..], &[0, 1]] {
        out.push(Call::new(2, &[(0.0, 1.0), (1.0, 2.0)], effects, &[8.0, 2.0, 800.0]).rounds(5));
    }
    // One of two values fixed by equal bounds, with and without its own effect.
    for effect in [0, 1] {
        out.push(Call::new(3, &three, &[effect], &[8.0, 1.0]).with(|c| {
            c.problem.lower[0] = 7.5;
            c.problem.upper[0] = 7.5;
        }));
    }
    out
}

type Fault = fn(&mut Call);

/// Puts a value where the list has such a place: another fault may have taken it away.
fn put<T>(list: &mut [T], at: usize, value: T) {
    if let Some(place) = list.get_mut(at) {
        *place = value;
    }
}

fn put_last<T>(list: &mut [T], value: T) {
    if let Some(place) = list.last_mut() {
        *place = value;
    }
}

fn bounds(lower: &mut [f64], upper: &mut [f64], at: usize, values: (f64, f64)) {
    put(lower, at, values.0);
    put(upper, at, values.1);
}

/// Ways to each refusal, by its number.
fn faults() -> Vec<(u64, Fault)> {
    vec![
        (1, |c| c.problem.code = 0),
        (1, |c| c.problem.code = 5),
        (1, |c| c.problem.code = u64::MAX),
        (1, |c| c.problem.code ^= 1 << 32),
        (2, |c| {
            c.problem.doses.clear();
            c.problem.grams.clear();
            c.problem.groups.clear();
        }),
        (2, |c| {
            c.problem.doses.resize(513, 1.0);
            c.problem.grams.resize(513, 1.0);
            c.problem.groups.resize(513, 0);
        }),
        (2, |c| c.problem.doses.truncate(1)),
        (2, |c| c.problem.doses.clear()),
        (2, |c| c.problem.doses.push(1.0)),
        (2, |c| c.problem.grams.truncate(1)),
        (2, |c| c.problem.grams.push(1.0)),
        (2, |c| c.problem.groups.truncate(1)),
        (2, |c| c.problem.groups.push(0)),
        (3, |c| c.problem.group_count = 0),
        (3, |c| c.problem.group_count = 33),
        (3, |c| c.problem.group_count = 1 << 32 | 1),
        (3, |c| c.problem.group_count = u64::MAX),
        (4, |c| put(&mut c.problem.groups, 0, c.problem.group_count)),
        (4, |c| put_last(&mut c.problem.groups, u64::MAX)),
        (4, |c| put(&mut c.problem.groups, 1, 1 << 32)),
        (5, |c| c.problem.effects.clear()),
        (5, |c| c.problem.effects = vec![0, 1, 0]),
        (5, |c| c.problem.effects = vec![1, 1]),
        (5, |c| {
            put(&mut c.problem.effects, 0, P[c.problem.code.min(4) as usize] as u64)
        }),
        (5, |c| c.problem.effects = vec![0, u64::MAX]),
        (5, |c| c.problem.effects = vec![1 << 32]),
        (5, |c| c.problem.effects = vec![4]),
        (6, |c| {
            c.problem.starts.pop();
        }),
        (6, |c| c.problem.starts.push(1.0)),
        (6, |c| {
            c.problem.lower.pop();
        }),
        (6, |c| c.problem.lower.push(-1e9)),
        (6, |c| c.problem.upper.push(1e9)),
        (6, |c| c.problem.group_lower.clear()),
        (6, |c| {
            c.problem.group_upper.pop();
        }),
        (6, |c| c.theta.clear()),
        (6, |c| c.theta.push(1.0)),
        (6, |c| c.theta = vec![1.0, 0.0]),
        (6, |c| {
            c.theta = if c.theta.len() == 1 {
                vec![1.0, 0.0, 1.0]
            } else {
                vec![1.0]
            }
        }),
        (7, |c| put(&mut c.problem.doses, 1, f64::NAN)),
        (7, |c| put(&mut c.problem.doses, 0, -INF)),
        (7, |c| put_last(&mut c.problem.grams, INF)),
        (7, |c| put(&mut c.problem.grams, 0, f64::NAN)),
        (7, |c| put(&mut c.problem.starts, 0, f64::NAN)),
        (7, |c| put_last(&mut c.problem.starts, -INF)),
        (7, |c| put(&mut c.theta, 0, f64::NAN)),
        (7, |c| put_last(&mut c.theta, INF)),
        (7, |c| put(&mut c.problem.lower, 0, f64::NAN)),
        (7, |c| put(&mut c.problem.upper, 1, f64::NAN)),
        (7, |c| put(&mut c.problem.group_lower, 1, f64::NAN)),
        (7, |c| put(&mut c.problem.group_upper, 0, f64::NAN)),
        (7, |c| put_last(&mut c.problem.lower, INF)),
        (7, |c| put(&mut c.problem.upper, 0, -INF)),
        (7, |c| put(&mut c.problem.group_lower, 0, INF)),
        (7, |c| put_last(&mut c.problem.group_upper, -INF)),
        (8, |c| {
            bounds(&mut c.problem.lower, &mut c.problem.upper, 1, (2.0, moved(2.0, -1)))
        }),
        (8, |c| {
            bounds(&mut c.problem.lower, &mut c.problem.upper, 0, (5e-324, 0.0))
        }),
        (8, |c| {
            bounds(&mut c.problem.group_lower, &mut c.problem.group_upper, 0, (1.0, -1.0))
        }),
        (8, |c| {
            bounds(&mut c.problem.group_lower, &mut c.problem.group_upper, 1, (1.0, 0.0))
        }),
        (9, |c| c.n_values = 0),
        (9, |c| c.n_values += 1),
        (9, |c| c.n_values -= usize::from(c.n_values > 0)),
        (9, |c| c.n_effects_out += 1),
        (9, |c| c.n_effects_out -= usize::from(c.n_effects_out > 0)),
        (9, |c| c.n_effects_out = 0),
        (9, |c| c.n_effects_out *= 2),
        (10, |c| c.max_rounds = 1001),
        (10, |c| c.max_rounds = u64::MAX),
        (10, |c| c.max_narrowings = 1001),
        (10, |c| c.max_narrowings = 1 << 32),
        (10, |c| {
            c.problem.effects = vec![1, 0];
            c.theta = vec![1.0, 0.0, 1.0];
            c.n_effects_out *= 2;
        }),
    ]
}

fn faulty(call: &Call, faults: &[Fault]) -> Call {
    faults.iter().fold(call.clone(), |call, fault| call.with(fault))
}

/// Each fault alone, and each pair of faults of different numbers, put in either order.
fn refused() -> Vec<Call> {
    let readings = [(1.0, 4.0), (2.0, 5.3), (3.0, 6.0), (4.0, 6.4)];
    let base = Call::new(3, &readings, &[0], &[8.0, 1.0])
        .groups(&[0, 1, 0, 2], 3)
        .rounds(20);
    let logistic = Call::new(1, &readings, &[0, 2], &[8.0, 2.0, 1.0])
        .groups(&[1, 1, 0, 0], 2)
        .rounds(20);
    let fpl = Call::new(4, &readings, &[3], &[1.0, 8.0, 2.0, 1.0]).rounds(20);
    let faults = faults();
    let mut out = Vec::new();
    for call in [&base, &logistic, &fpl] {
        for (_, fault) in &faults {
            out.push(faulty(call, &[*fault]));
        }
    }
    for (first, one) in &faults {
        for (second, other) in &faults {
            if first != second {
                out.push(faulty(&base, &[*one, *other]));
            }
        }
    }
    out
}

/// The limits of every size, and what must pass.
fn limits() -> Vec<Call> {
    let mut out = Vec::new();
    let many = |n: usize| -> Vec<(f64, f64)> {
        (0..n)
            .map(|i| {
                let dose = (i % 41) as f64 / 4.0;
                (dose, 8.0 * dose / (1.5 + dose) + ((i * 7919) % 13) as f64 * 0.01)
            })
            .collect()
    };
    for n in [1, 2, 511, 512, 513] {
        for m in [1, 2, 31, 32, 33] {
            let groups: Vec<u64> = (0..n as u64).map(|i| i * 31 % m).collect();
            let call = Call::new(3, &many(n), &[0], &[8.0, 1.0]).groups(&groups, m).rounds(3);
            out.push(call.clone());
            out.push(call.with(|c| {
                c.problem.effects = vec![1, 0];
                c.theta = vec![2.0, 0.5, 1.0];
                c.n_effects_out *= 2;
            }));
        }
    }
    let small = Call::new(3, &many(6), &[0], &[8.0, 1.0]).groups(&[0, 0, 2, 2, 2, 0], 3);
    for rounds in [0, 1, 2, 20, 999, 1000, 1001] {
        out.push(small.clone().rounds(rounds));
    }
    for narrowings in [0, 1, 2, 24, 25, 26, 27, 30, 999, 1000, 1001] {
        out.push(small.clone().rounds(10).with(|c| c.max_narrowings = narrowings));
    }
    for order in [0, 1, 2, 3, 4, 5, 6, 7, 8, 9, 10, 11, 12, 100, 1 << 32, u64::MAX] {
        for reml in [0, 1, 2, u64::MAX] {
            let asked = |c: &mut Call| {
                c.n_agq = order;
                c.reml = reml;
            };
            out.push(small.clone().rounds(10).with(asked));
            out.push(
                Call::new(1, &many(6), &[2, 0], &[8.0, 2.0, 1.0])
                    .groups(&[0, 0, 2, 2, 2, 0], 3)
                    .rounds(10)
                    .with(asked),
            );
        }
    }
    for theta in THETAS {
        out.push(small.clone().theta(&[theta]).rounds(30));
        for other in THETAS {
            out.push(
                Call::new(2, &many(6), &[0, 2], &[8.0, 1.0, 0.0])
                    .groups(&[0, 0, 2, 2, 2, 0], 3)
                    .theta(&[theta, other, 1.0])
                    .rounds(30)
                    .with(|c| c.n_agq = 3),
            );
        }
    }
    out
}

const THETAS: [f64; 18] = [
    0.0,
    -0.0,
    -2.0,
    0.5,
    1.0,
    3.0,
    20.0,
    1e-8,
    9.9e-9,
    1e-9,
    5e-324,
    1e-160,
    1e7,
    1e9,
    1e154,
    1e200,
    -1e200,
    f64::MAX,
];

/// Inputs that tell readings apart, each in several ways; limits; refusals.
pub fn directed(operation: Operation) -> Vec<Vec<Case>> {
    let mut apart = Vec::new();
    for call in separating() {
        apart.push(call.clone());
        match operation {
            Operation::Fit => apart.extend([0, 1, 2, 3].map(|n| call.clone().rounds(n))),
            Operation::Criterion | Operation::Search => {
                for order in [0, 3, 5, 11] {
                    for reml in [0, 1] {
                        apart.push(call.clone().with(|c| {
                            c.reml = reml;
                            c.n_agq = order;
                            c.max_rounds = c.max_rounds.min(120);
                        }));
                    }
                }
            }
        }
    }
    let mut lists = vec![apart, limits(), refused()];
    if operation == Operation::Search {
        // Two effects are refused; their one-effect sisters are not.
        for calls in &mut lists[..2] {
            for call in calls.clone() {
                if call.problem.effects.len() == 2 {
                    calls.push(call.with(|c| c.problem.effects.truncate(1)));
                }
            }
            for call in calls {
                if call.problem.doses.len() > 64 {
                    call.max_rounds = call.max_rounds.min(3);
                    call.max_narrowings = call.max_narrowings.min(3);
                }
            }
        }
    }
    // Two faults put in either order are mostly one case.
    let mut seen = HashSet::new();
    let mut new = |case: &Case| seen.insert(std::mem::take(&mut Line::default().case(case).0));
    lists
        .iter()
        .map(|calls| {
            let cases = calls.iter().map(|call| call.case(operation));
            cases.filter(|case| new(case)).collect()
        })
        .collect()
}

pub const KINDS: usize = 14;

/// The kinds that a paint shop's readings give.
pub const REALISTIC: [usize; 4] = [0, 1, 2, 6];

pub fn random(r: &mut Random, kind: usize, operation: Operation) -> Case {
    let code = r.upto(1, 4);
    let p = P[code as usize];
    let search = operation == Operation::Search;
    let mut n = r.upto(1, if search { 12 } else { 20 }) as usize;
    let mut m = r.upto(1, 5);
    let kind = kind % KINDS;
    if kind <= 2 {
        n = r.upto(6, if search { 14 } else { 24 }) as usize;
    } else if kind == 6 {
        n = r.upto(20, if search { 24 } else { 60 }) as usize;
        m = r.upto(2, 12);
    } else if kind == 8 {
        n = r.upto(1, 3) as usize;
    } else if kind == 9 && r.one_in(10) {
        n = if search { 100 } else { 512 };
        m = 32;
    }

    // Realistic readings and start, which the kinds then bend.
    let true_values = realistic_values(r, code);
    let own: Vec<f64> = (0..m).map(|_| r.noise() * true_values[0] * 0.05).collect();
    let mut readings = Vec::new();
    let mut groups = Vec::new();
    let empty = if r.one_in(4) { r.below(m) } else { m };
    for i in 0..n {
        let mut g = if r.one_in(2) { i as u64 % m } else { r.below(m) };
        if g == empty {
            g = (g + 1) % m;
        }
        let dose = hundredths(r.between(0.0, 10.0));
        let mut values = true_values.clone();
        values[0] += own[g as usize];
        let gram = hundredths(grams_at(code, &values, dose) + r.noise() * 0.5);
        readings.push((dose, gram));
        groups.push(g);
    }
    let starts: Vec<f64> = true_values.iter().map(|v| v * r.between(0.7, 1.4)).collect();
    let first = r.below(p as u64);
    let two = kind == 1 || (kind != 0 && r.one_in(4) && !search);
    let effects = if two && !search {
        vec![first, (first + r.upto(1, p as u64 - 1)) % p as u64]
    } else {
        vec![first]
    };
    let mut call = Call::new(code, &readings, &effects, &starts).groups(&groups, m);
    call.max_rounds = r.pick(&[0, 1, 2, 3, 5, 20, 50, 120]);
    if kind <= 2 || kind == 6 {
        call.max_rounds = r.pick(&[20, 50, 120, 1000]);
    }
    if kind == 9 {
        call.max_rounds = r.below(4);
    }
    if search {
        call.max_rounds = call.max_rounds.min(50);
    }
    call.theta = (0..call.theta.len()).map(|_| r.between(0.2, 20.0)).collect();
    if call.theta.len() == 3 && r.one_in(2) {
        call.theta[1] = r.between(-3.0, 3.0);
    }
    call.reml = r.below(2);
    call.n_agq = r.pick(&[0, 1, 2, 3, 5, 7, 9, 11, 20]);
    call.max_narrowings = r.pick(&[0, 1, 5, 25, 26, 27, 30, 1000]);

    match kind {
        // With bounds near the values.
        2 | 7 => bound(r, &mut call, kind == 7),
        // Small whole numbers: ties, exact zeros, singular blocks.
        3 | 4 | 8 => {
            for x in call.problem.doses.iter_mut().chain(&mut call.problem.grams) {
                *x = r.small();
            }
            for x in &mut call.problem.starts {
                *x = r.small();
            }
            for x in &mut call.theta {
                *x = r.pick(&THETAS);
            }
            if kind == 4 {
                bound(r, &mut call, false);
                if r.one_in(3) {
                    call.problem.upper[p - 1] = 1e-7;
                    call.problem.lower[p - 1] = call.problem.lower[p - 1].min(1e-7);
                }
            }
        }
        // A few numbers, or all, from every size.
        5 => {
            for _ in 0..r.upto(1, 3) {
                let at = r.below(n as u64) as usize;
                match r.below(4) {
                    0 => call.problem.doses[at] = r.finite(),
                    1 => call.problem.grams[at] = r.finite(),
                    2 => call.problem.starts[at % p] = r.finite(),
                    _ => call.theta[0] = r.finite(),
                }
            }
        }
        10 => {
            let size = r.pick(&[10, 100, 400, 800, 1023]);
            for x in call.problem.doses.iter_mut().chain(&mut call.problem.grams) {
                *x = r.power(size);
            }
            for x in &mut call.problem.starts {
                *x = r.power(size);
            }
            for x in &mut call.theta {
                *x = r.pick(&THETAS);
            }
        }
        // Wild bounds, in order.
        11 => {
            for i in 0..p {
                let (l, u) = ordered(r.wild(), r.wild());
                call.problem.lower[i] = if l == INF { -INF } else { l };
                call.problem.upper[i] = if u == -INF { INF } else { u };
                let (l, u) = ordered(r.wild(), r.wild());
                call.problem.group_lower[i] = if l == INF { -INF } else { l };
                call.problem.group_upper[i] = if u == -INF { INF } else { u };
            }
        }
        // The start at the answer's place, at zeros, at the other sign; scal at its limits.
        12 => {
            for x in &mut call.problem.starts {
                *x *= r.pick(&[1.0, -1.0, 0.0, -0.0, 1e-9, 1e3]);
            }
            let last = call.problem.starts.len() - 1;
            call.problem.starts[last] = r.pick(&[0.0, -0.0, 1e-8, 9.9e-9, -9.9e-9, -1e-8, 1e-6, -1.0, 350.0, 5e-324]);
        }
        // A fault or two.
        13 => {
            let faults = faults();
            let one = faults[r.below(faults.len() as u64) as usize].1;
            let other = faults[r.below(faults.len() as u64) as usize].1;
            let chosen = if r.one_in(2) { vec![one] } else { vec![one, other] };
            call = faulty(&call, &chosen);
        }
        _ => {}
    }
    call.case(operation)
}

fn ordered(a: f64, b: f64) -> (f64, f64) {
    let number = |x: f64| if x.is_nan() { 0.0 } else { x };
    let (a, b) = (number(a), number(b));
    if a > b {
        (b, a)
    } else {
        (a, b)
    }
}

/// Bounds about the start: some infinite, some equal, some that exclude it; group bounds alike.
fn bound(r: &mut Random, call: &mut Call, tight: bool) {
    let p = call.problem.starts.len();
    for i in 0..p {
        let start = call.problem.starts[i];
        let room = start.abs() * if tight { 0.05 } else { 0.6 } + 0.01;
        if r.one_in(2) {
            call.problem.lower[i] = start - room * r.between(-0.3, 1.0);
        }
        if r.one_in(2) {
            call.problem.upper[i] = start + room * r.between(-0.3, 1.0);
        }
        if call.problem.lower[i] > call.problem.upper[i] || r.one_in(6) {
            let equal = start + room * r.between(-0.5, 0.5);
            call.problem.lower[i] = equal;
            call.problem.upper[i] = equal;
        }
        if r.one_in(2) {
            call.problem.group_lower[i] = start - room * r.between(-0.2, 1.0);
        }
        if r.one_in(2) {
            call.problem.group_upper[i] = start + room * r.between(-0.2, 1.0);
        }
        if call.problem.group_lower[i] > call.problem.group_upper[i] {
            call.problem.group_upper[i] = call.problem.group_lower[i];
        }
    }
}
