//! Problems and faults that the tests share.

#![allow(dead_code)]

pub mod faults;

use kemroul::{Curve, Effects, Problem};

pub const BELOW: [f64; 4] = [f64::NEG_INFINITY; 4];
pub const ABOVE: [f64; 4] = [f64::INFINITY; 4];
pub const ZEROS: [u64; 513] = [0; 513];

/// What lent places hold before a call.
pub const KEPT: f64 = -7.25;

/// One group, no bounds.
pub fn problem<'a>(
    curve: Curve,
    doses: &'a [f64],
    grams: &'a [f64],
    effects: Effects,
    starts: &'a [f64],
) -> Problem<'a> {
    let p = starts.len();
    Problem {
        curve,
        doses,
        grams,
        groups: &ZEROS[..doses.len()],
        group_count: 1,
        effects,
        starts,
        lower: &BELOW[..p],
        upper: &ABOVE[..p],
        group_lower: &BELOW[..p],
        group_upper: &ABOVE[..p],
    }
}

const AGES: [f64; 7] = [118.0, 484.0, 664.0, 1004.0, 1231.0, 1372.0, 1582.0];
const TREES: [[f64; 7]; 5] = [
    [30.0, 58.0, 87.0, 115.0, 120.0, 142.0, 145.0],
    [33.0, 69.0, 111.0, 156.0, 172.0, 203.0, 203.0],
    [30.0, 51.0, 75.0, 108.0, 115.0, 139.0, 140.0],
    [32.0, 62.0, 112.0, 167.0, 179.0, 209.0, 214.0],
    [30.0, 49.0, 81.0, 125.0, 142.0, 174.0, 177.0],
];

/// R's data set Orange: ages, circumferences, trees.
pub fn orange() -> (Vec<f64>, Vec<f64>, Vec<u64>) {
    (AGES.repeat(5), TREES.concat(), (0..35).map(|i| i / 7).collect())
}
