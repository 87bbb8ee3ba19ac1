//! Cases of exp, ln, sqrt, gh_order and curve.

use crate::random::{moved, scaled, Random, SPECIAL};
use text::Case;

const fn bits(b: u64) -> f64 {
    f64::from_bits(b)
}

const LN2: f64 = std::f64::consts::LN_2;

fn around(out: &mut Vec<f64>, x: f64, units: i64) {
    for unit in -units..=units {
        out.push(moved(x, unit));
    }
}

fn both_signs(list: Vec<f64>) -> impl Iterator<Item = f64> {
    list.into_iter().flat_map(|x| [x, -x])
}

/// Where e_exp.c changes its branch and the ends of the range; every k and every power of two.
pub fn exp() -> Vec<Vec<Case>> {
    let mut at = Vec::new();
    for x in SPECIAL {
        around(&mut at, x, 4);
    }
    for x in [
        bits(0x4086_2e42_fefa_39ef), // overflow
        bits(0x4087_4910_d52d_3051), // underflow
        bits(0x4086_2e42_0000_0000), // the first look at both
        bits(0x3fd6_2e42_0000_0000), // 0.5 ln2 by its high word
        bits(0x3fd6_2e43_0000_0000),
        0.5 * LN2,
        bits(0x3ff0_a2b2_0000_0000), // 1.5 ln2 by its high word
        1.5 * LN2,
        bits(0x3e30_0000_0000_0000), // 2^-28
        708.396_418_532_264_1,       // smallest normal result
        744.440_071_921_381_3,
        745.133_219_101_941_2,
    ] {
        around(&mut at, x, 16);
    }
    let branches = both_signs(at).map(Case::Exp).collect();
    let mut at = Vec::new();
    for k in 0..1076 {
        around(&mut at, k as f64 * LN2, 2);
        around(&mut at, (k as f64 + 0.5) * LN2, 2);
        at.push(k as f64);
    }
    for exponent in -1074..1024 {
        around(&mut at, scaled(1.0, exponent), 1);
    }
    vec![branches, both_signs(at).map(Case::Exp).collect()]
}

pub fn exp_random(r: &mut Random, kind: usize) -> Case {
    Case::Exp(match kind % 6 {
        0 => r.wild(),
        1 => f64::from_bits(r.bits()),
        2 => r.between(-746.0, 710.0),
        3 => r.between(-2.0, 2.0),
        4 => r.between(-746.0, -708.0),
        _ => r.power(40),
    })
}

/// Special floats and the neighbours of 1; every power of two; where e_log.c changes its branch.
pub fn ln() -> Vec<Vec<Case>> {
    let mut at = Vec::new();
    for x in SPECIAL {
        around(&mut at, x, 4);
        at.push(-x);
    }
    around(&mut at, 1.0, 64);
    for shift in 0..53 {
        at.push(1.0 + scaled(1.0, -shift));
        at.push(1.0 - scaled(1.0, -shift));
    }
    let special = at.drain(..).map(Case::Ln).collect();
    for exponent in -1074..1024 {
        around(&mut at, scaled(1.0, exponent), 2);
    }
    let powers = at.drain(..).map(Case::Ln).collect();
    // By high words: sqrt(2), the two ends of the middle branch, |f| < 2^-20.
    for exponent in [-1022, -1021, -500, -2, -1, 0, 1, 2, 500, 1022, 1023] {
        for high in [
            0x6a09c, 0x6a09b, 0x6147a, 0x6147b, 0x6b851, 0x6b852, 0xffffd, 0xffffe, 0xfffff, 0, 1, 2,
        ] {
            let place = ((1023 + exponent) as u64) << 52 | (high as u64) << 32;
            around(&mut at, bits(place), 3);
            at.push(bits(place | 0xffff_ffff));
        }
        around(&mut at, scaled(std::f64::consts::SQRT_2, exponent), 3);
    }
    vec![special, powers, at.into_iter().map(Case::Ln).collect()]
}

pub fn ln_random(r: &mut Random, kind: usize) -> Case {
    Case::Ln(match kind % 6 {
        0 => r.wild(),
        1 => f64::from_bits(r.bits() >> 1),
        2 => r.between(0.0, 4.0),
        3 => 1.0 + r.power(60).clamp(-0.9, 0.9) * 1e-3,
        4 => f64::from_bits(r.bits() >> r.upto(12, 63)),
        _ => r.power(60).abs(),
    })
}

/// Special floats; powers of two, subnormal ones too; squares and what lies halfway between them.
pub fn sqrt() -> Vec<Vec<Case>> {
    let mut at = Vec::new();
    for x in SPECIAL {
        around(&mut at, x, 4);
        at.push(-x);
    }
    let special = at.drain(..).map(Case::Sqrt).collect();
    for exponent in -1074..1024 {
        around(&mut at, scaled(1.0, exponent), 2);
    }
    let powers = at.drain(..).map(Case::Sqrt).collect();
    for n in 0..2000 {
        let root = (1u64 << 26) as f64 - 1000.0 + n as f64;
        around(&mut at, root * root, 1);
        around(&mut at, root * (root + 1.0), 1);
        around(&mut at, n as f64 * n as f64, 1);
    }
    vec![special, powers, at.into_iter().map(Case::Sqrt).collect()]
}

pub fn sqrt_random(r: &mut Random, kind: usize) -> Case {
    Case::Sqrt(match kind % 6 {
        0 => r.wild(),
        1 => f64::from_bits(r.bits() >> 1),
        2 => r.between(0.0, 4.0),
        3 => {
            let root = r.between(1.0, 2.0);
            let units = r.below(5) as i64 - 2;
            moved(root * root, units)
        }
        4 => f64::from_bits(r.bits() >> r.upto(12, 63)),
        _ => r.power(60).abs(),
    })
}

pub fn gh_order() -> Vec<Vec<Case>> {
    let mut asked: Vec<u64> = (0..65).collect();
    for shift in 6..64 {
        asked.extend([(1u64 << shift) - 1, 1 << shift, (1 << shift) + 1]);
    }
    asked.push(u64::MAX);
    vec![asked.into_iter().map(Case::GhOrder).collect()]
}

pub fn gh_order_random(r: &mut Random, kind: usize) -> Case {
    Case::GhOrder(if kind % 2 == 0 {
        r.below(16)
    } else {
        r.bits() >> r.below(64)
    })
}

pub const P: [usize; 5] = [0, 3, 3, 2, 4];

/// Every list of `length` elements of `of`.
pub fn tuples(of: &[f64], length: usize) -> Vec<Vec<f64>> {
    (0..length).fold(vec![vec![]], |lists, _| {
        lists
            .iter()
            .flat_map(|list| of.iter().map(move |&x| [list.as_slice(), &[x]].concat()))
            .collect()
    })
}

/// Document 01's rows and both refusals; special floats in every place.
pub fn curve() -> Vec<Vec<Case>> {
    let case = |code: u64, values: &[f64], dose: f64| Case::Curve {
        code,
        values: values.to_vec(),
        dose,
    };
    let two_1023 = bits(0x7fe0_0000_0000_0000);
    let mut rows = vec![
        case(3, &[8.0, 1.0], 3.0),
        case(3, &[8.0, two_1023], two_1023),
        case(3, &[8.0, -3.0], 3.0),
        case(3, &[8.0, 0.0], 0.0),
        case(1, &[200.0, 5.0, 350.0], 5.0),
        case(2, &[90.0, 20.0, 0.0], 0.0),
    ];
    for code in [0, 1, 2, 3, 4, 5, 6, 255, 256, 257, 1 << 32 | 1, 1 << 63, u64::MAX] {
        for length in 0..7 {
            rows.push(case(code, &vec![1.5; length], 2.0));
            rows.push(case(code, &vec![f64::NAN; length], f64::INFINITY));
        }
    }
    const INF: f64 = f64::INFINITY;
    const NAN: f64 = f64::NAN;
    const MAX: f64 = f64::MAX;
    let two = [
        0.0, -0.0, 1.0, -3.0, INF, -INF, NAN, MAX, -MAX, 5e-324, -5e-324, two_1023, 2e-308, 1e200,
    ];
    let three = [0.0, -0.0, 1.0, -2.0, INF, -INF, NAN, MAX, 5e-324, 700.0, 1e200];
    let four = [0.0, -0.0, 1.0, -2.0, INF, NAN, MAX];
    let all = |code: u64, of: &[f64]| {
        let p = P[code as usize];
        tuples(of, p + 1)
            .iter()
            .map(|list| case(code, &list[..p], list[p]))
            .collect()
    };
    vec![rows, all(3, &two), all(1, &three), all(2, &three), all(4, &four)]
}

/// Realistic values of a curve over doses from 0 to 10.
pub fn realistic_values(r: &mut Random, code: u64) -> Vec<f64> {
    match code {
        1 => vec![r.between(50.0, 300.0), r.between(2.0, 8.0), r.between(0.5, 3.0)],
        2 => vec![r.between(50.0, 100.0), r.between(0.0, 30.0), r.between(-2.0, 0.5)],
        3 => vec![r.between(5.0, 20.0), r.between(0.5, 4.0)],
        _ => vec![
            r.between(-5.0, 10.0),
            r.between(50.0, 100.0),
            r.between(2.0, 8.0),
            r.between(0.5, 3.0),
        ],
    }
}

pub fn curve_random(r: &mut Random, kind: usize) -> Case {
    let code = r.upto(1, 4);
    let mut values = realistic_values(r, code);
    let mut dose = r.between(0.0, 10.0);
    match kind % 6 {
        0 => {}
        1 => {
            let at = r.below(values.len() as u64) as usize;
            values[at] = r.wild();
        }
        2 => dose = r.wild(),
        3 => {
            for value in &mut values {
                *value = r.wild();
            }
            dose = r.wild();
        }
        4 => {
            for value in &mut values {
                *value = r.power(1030);
            }
            dose = if r.one_in(3) { -values[1] } else { r.power(1030) };
        }
        _ => {
            // A dose near the middle, and exponents near the ends of exp's range.
            let middle = if code == 4 { 2 } else { 1 };
            dose = moved(values[middle], r.below(9) as i64 - 4);
            if r.one_in(2) {
                let t = r.between(-760.0, 760.0);
                dose = values[middle] - t * values[values.len() - 1];
            }
        }
    }
    Case::Curve { code, values, dose }
}
