//! Cases of solve, inverse, cholesky and direction.

use crate::leaves::tuples;
use crate::random::{moved, Random};
use text::{Blocks, Case};

const INF: f64 = f64::INFINITY;
const NAN: f64 = f64::NAN;
const MAX: f64 = f64::MAX;

fn system(n: usize, a: &[f64], b: &[f64]) -> Case {
    Case::Solve {
        n,
        a: a.to_vec(),
        b: b.to_vec(),
    }
}

/// Two by two matrices that tell rules of the pivot apart: ties, zeros of both signs, a NaN, infinities, the ends
/// of the range.
const PAIRS: [[f64; 4]; 22] = [
    [3.0, 8.0, -3.0, 7.0],
    [-3.0, 7.0, 3.0, 8.0],
    [0.0, 1.0, 1.0, 0.0],
    [-0.0, 1.0, 0.0, 1.0],
    [0.0, 0.0, 0.0, 0.0],
    [1.0, 1.0, 1.0, 1.0],
    [1.0, 2.0, 2.0, 4.0],
    [1.0, 2.0, 3.0, 6.0],
    [NAN, 1.0, 2.0, 1.0],
    [2.0, 1.0, NAN, 1.0],
    [1.0, INF, 0.0, 1.0],
    [1.0, -INF, -0.0, 1.0],
    [INF, 0.0, 1.0, 1.0],
    [1.0, 1.0, INF, 0.0],
    [INF, 1.0, INF, 2.0],
    [5e-324, 1.0, 1.0, 5e-324],
    [MAX, MAX, -MAX, MAX],
    [1e-300, 1e300, 1e300, 1e-300],
    [4.0, 99.0, 2.0, 10.0],
    [4.0, 2.0, 2.0, 2.0],
    [1e-8, 1e-9, 1e-9, 1e-8],
    [1.0, 1.0, 1.0, 1.0 + f64::EPSILON],
];

/// Rules of the pivot for one to four equations; every pair of special floats for one, every six of a few for two.
pub fn solve() -> Vec<Vec<Case>> {
    let mut rows = Vec::new();
    for a in PAIRS {
        for b in [[1.0, 1.0], [0.0, -0.0], [-0.0, 5e-324], [INF, 1.0]] {
            rows.push(system(2, &a, &b));
        }
    }
    for n in 3..=4 {
        let right: Vec<f64> = (0..n).map(|i| 4.0 - 3.0 * i as f64).collect();
        let zeros = vec![-0.0; n];
        let with =
            |entry: &dyn Fn(usize, usize) -> f64| -> Vec<f64> { (0..n * n).map(|at| entry(at / n, at % n)).collect() };
        let one = |is: bool| if is { 1.0 } else { 0.0 };
        for turned in 0..n {
            // Each row pivots in another column: with zeros, with ties in size, with a zero column, with rows alike.
            let a = [
                with(&|i, j| one((i + turned) % n == j)),
                with(&|i, j| if (i + turned) % n == j { 7.0 } else { -3.0 }),
                with(&|i, j| {
                    if (i + j) % 2 == 0 {
                        3.0
                    } else {
                        -3.0 + 1.0 / (1 + j) as f64
                    }
                }),
                with(&|i, j| if j == turned { -0.0 } else { one(i == j) + 0.5 }),
                with(&|i, j| {
                    if i == turned || i == 0 {
                        2.0 + j as f64
                    } else {
                        (i * j) as f64 - 5.0
                    }
                }),
                with(&|i, j| if i == 0 && j == turned { INF } else { one(i <= j) }),
                with(&|i, j| {
                    if i == turned && j == turned {
                        NAN
                    } else {
                        one(i == j) * 3.0 + 1.0
                    }
                }),
                with(&|i, j| if i == j { [1e-150, 1e-50, 1e50, 1e150][i] } else { 1.0 }),
                with(&|i, j| if i == j { -1e-300 } else { 1e300 / (1 + i + j) as f64 }),
            ];
            for a in a {
                rows.push(system(n, &a, &right));
                rows.push(system(n, &a, &zeros));
            }
        }
    }
    let one = tuples(&[0.0, -0.0, 1.0, -3.0, INF, -INF, NAN, MAX, 5e-324], 2);
    let two = tuples(&[0.0, -0.0, 1.0, -2.0, INF, NAN], 6);
    vec![
        PAIRS.iter().map(|a| system(2, a, &[4.0, 2.0])).collect(),
        rows,
        one.iter().map(|x| system(1, &x[..1], &x[1..])).collect(),
        two.iter().map(|x| system(2, &x[..4], &x[4..])).collect(),
    ]
}

/// The matrices of `PAIRS`, and every four of some special floats.
fn two_by_two(case: fn(Vec<f64>) -> Case) -> Vec<Vec<Case>> {
    let all = tuples(&[0.0, -0.0, 1.0, -2.0, 3.0, INF, NAN, MAX, 5e-324], 4);
    vec![
        PAIRS.iter().map(|a| case(a.to_vec())).collect(),
        all.into_iter().map(case).collect(),
    ]
}

pub fn inverse() -> Vec<Vec<Case>> {
    two_by_two(Case::Inverse)
}

pub fn cholesky() -> Vec<Vec<Case>> {
    two_by_two(Case::Cholesky)
}

/// The entries of one kind; kind 0 makes whole matrices instead.
fn entry(r: &mut Random, kind: usize) -> f64 {
    match kind % 6 {
        1 => r.small(),
        2 => r.wild(),
        3 => r.power(1023),
        4 => r.pick(&[0.0, -0.0, 1.0, -1.0]),
        _ => r.between(-9.0, 9.0),
    }
}

/// n by n entries of one kind; of kind 0 the sums of products of readings, of kind 5 with one float of any size.
fn square(r: &mut Random, kind: usize, n: usize) -> Vec<f64> {
    let mut a: Vec<f64> = (0..n * n).map(|_| entry(r, kind)).collect();
    match kind % 6 {
        0 => {
            a = vec![0.0; n * n];
            for _ in 0..n + 2 {
                let row: Vec<f64> = (0..n).map(|_| r.between(-2.0, 2.0)).collect();
                for at in 0..n * n {
                    a[at] += row[at / n] * row[at % n];
                }
            }
        }
        5 => {
            let at = r.below((n * n) as u64) as usize;
            a[at] = r.wild();
        }
        _ => {}
    }
    a
}

pub fn solve_random(r: &mut Random, kind: usize) -> Case {
    let n = r.upto(1, 4) as usize;
    let a = square(r, kind, n);
    let b: Vec<f64> = (0..n).map(|_| entry(r, kind)).collect();
    system(n, &a, &b)
}

pub fn inverse_random(r: &mut Random, kind: usize) -> Case {
    Case::Inverse(square(r, kind, 2))
}

pub fn cholesky_random(r: &mut Random, kind: usize) -> Case {
    Case::Cholesky(square(r, kind, 2))
}

/// The sums of products of some readings in each group, with a prior on the effects, as a fit makes them.
fn from_readings(r: &mut Random, p: usize, k: usize, groups: usize) -> Blocks {
    let mut o = Blocks {
        p,
        k,
        groups,
        fixed: vec![0.0; p * p],
        cross: vec![0.0; groups * p * k],
        random: vec![0.0; groups * k * k],
        fixed_rhs: vec![0.0; p],
        random_rhs: vec![0.0; groups * k],
    };
    for g in 0..groups {
        for _ in 0..r.upto(1, 5) {
            let f: Vec<f64> = (0..4).map(|_| r.between(-2.0, 2.0)).collect();
            let residual = r.noise();
            for i in 0..p {
                o.fixed_rhs[i] += f[i] * residual;
                for j in 0..p {
                    o.fixed[i * p + j] += f[i] * f[j];
                }
                for j in 0..k {
                    o.cross[g * p * k + i * k + j] += f[i] * f[j];
                }
            }
            for i in 0..k {
                o.random_rhs[g * k + i] += f[i] * residual;
                for j in 0..k {
                    o.random[g * k * k + i * k + j] += f[i] * f[j];
                }
            }
        }
        for i in 0..k {
            o.random[g * k * k + i * k + i] += 0.25;
        }
    }
    o
}

/// Blocks of which every entry is `of`.
fn all_of(p: usize, k: usize, groups: usize, mut of: impl FnMut() -> f64) -> Blocks {
    let mut list = |n: usize| -> Vec<f64> { (0..n).map(|_| of()).collect() };
    Blocks {
        p,
        k,
        groups,
        fixed: list(p * p),
        cross: list(groups * p * k),
        random: list(groups * k * k),
        fixed_rhs: list(p),
        random_rhs: list(groups * k),
    }
}

/// One float of the blocks, chosen at random.
fn any_entry<'a>(r: &mut Random, o: &'a mut Blocks) -> &'a mut f64 {
    let list = match r.below(5) {
        0 => &mut o.fixed,
        1 => &mut o.cross,
        2 => &mut o.random,
        3 => &mut o.fixed_rhs,
        _ => &mut o.random_rhs,
    };
    let at = r.below(list.len() as u64) as usize;
    &mut list[at]
}

const DAMPINGS: [f64; 8] = [0.0, 1e-10, 1e-3, 1.0, 1e6, -0.0, INF, NAN];

/// Every size with each damping; blocks whose damped pivot is exactly zero; diagonals about 1e-8; ties; zeros.
pub fn direction() -> Vec<Vec<Case>> {
    let mut sizes = Vec::new();
    let mut pivots = Vec::new();
    let mut r = Random::new(1);
    for p in 1..=4 {
        for k in 1..=2 {
            for (i, groups) in [1, 2, 3, 5, 1, 2, 1, 4].into_iter().enumerate() {
                sizes.push(Case::Direction {
                    blocks: from_readings(&mut r, p, k, groups),
                    damping: DAMPINGS[i],
                });
            }
            sizes.push(Case::Direction {
                blocks: from_readings(&mut r, p, k, 32),
                damping: 1e-3,
            });
            let mut add = |blocks: &Blocks, damping: f64| {
                pivots.push(Case::Direction {
                    blocks: blocks.clone(),
                    damping,
                })
            };
            let plain = from_readings(&mut r, p, k, 2);
            for x in [-1e-8, 1e-8, moved(1e-8, 1), moved(1e-8, -1), 0.0, -0.0, NAN, INF, -3.0] {
                for damping in [0.0, 1.0] {
                    // In the last group's block, then in the fixed one.
                    let mut o = plain.clone();
                    let last = o.random.len() - 1;
                    o.random[last] = x;
                    add(&o, damping);
                    let mut o = plain.clone();
                    let last = o.fixed.len() - 1;
                    o.fixed[last] = x;
                    add(&o, damping);
                }
            }
            for x in [0.0, -0.0, 1.0, 1e-200, 1e200] {
                add(&all_of(p, k, 2, || x), 0.0);
                add(&all_of(p, k, 2, || x), 1.0);
            }
            if k == 2 {
                for a in PAIRS {
                    let mut o = plain.clone();
                    o.random[..4].copy_from_slice(&a);
                    add(&o, 0.0);
                }
            }
        }
    }
    vec![sizes, pivots]
}

pub fn direction_random(r: &mut Random, kind: usize) -> Case {
    let p = r.upto(1, 4) as usize;
    let k = r.upto(1, 2) as usize;
    let groups = if r.one_in(40) { r.upto(6, 32) } else { r.upto(1, 5) } as usize;
    let mut blocks = from_readings(r, p, k, groups);
    let mut damping = r.pick(&DAMPINGS[..5]);
    match kind % 8 {
        0..=2 => {}
        3 => blocks = all_of(p, k, groups, || r.small()),
        4 => blocks = all_of(p, k, groups, || r.pick(&[0.0, -0.0, 1.0, -1.0])),
        5 => blocks = all_of(p, k, groups, || r.power(100)),
        6 => *any_entry(r, &mut blocks) = r.wild(),
        _ => {
            *any_entry(r, &mut blocks) = r.finite();
            damping = r.wild().abs();
        }
    }
    Case::Direction { blocks, damping }
}
