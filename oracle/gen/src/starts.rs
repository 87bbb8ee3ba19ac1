//! Cases of start.

use crate::leaves::{realistic_values, P};
use crate::random::{moved, Random};
use text::Case;

/// The curve's grams at a dose, by fdlibm.
pub fn grams_at(code: u64, v: &[f64], dose: f64) -> f64 {
    match code {
        1 => v[0] / (1.0 + fdlibm::exp((v[1] - dose) / v[2])),
        2 => v[0] - (v[0] - v[1]) * fdlibm::exp(-fdlibm::exp(v[2]) * dose),
        3 => v[0] * dose / (v[1] + dose),
        _ => v[0] + (v[1] - v[0]) / (1.0 + fdlibm::exp((v[2] - dose) / v[3])),
    }
}

/// As a scale shows it.
pub fn hundredths(x: f64) -> f64 {
    (x * 100.0).round() / 100.0
}

fn add(out: &mut Vec<Case>, code: u64, doses: &[f64], grams: &[f64], n_values: usize) {
    out.push(Case::Start {
        code,
        doses: doses.to_vec(),
        grams: grams.to_vec(),
        n_values,
    });
}

/// Document 01's rows and every refusal; lists at their limits; doses and grams that separate.
pub fn start() -> Vec<Vec<Case>> {
    let mut out = Vec::new();
    let o = &mut out;
    add(o, 3, &[1.0, 3.0], &[2.0, 6.0], 2);
    add(o, 3, &[], &[], 2);
    add(o, 1, &[0.0, 1.0, 2.0, 3.0], &[0.0, 2.0, 4.0, 8.0], 3);
    // Every refusal, alone and together.
    for code in [0, 1, 2, 3, 4, 5, 1 << 32 | 1, u64::MAX] {
        for n_values in 0..7 {
            for (doses, grams) in [(4, 4), (0, 0), (4, 3), (3, 4), (0, 1), (1, 0)] {
                let list: Vec<f64> = (0..4).map(f64::from).collect();
                add(o, code, &list[..doses], &list[..grams], n_values);
            }
        }
    }
    let refused = std::mem::take(o);
    for code in [0, 1, 2, 3, 4] {
        for (doses, grams) in [(511, 511), (512, 512), (513, 513), (512, 513), (513, 512), (600, 600)] {
            let list: Vec<f64> = (0..600).map(|i| f64::from(i * 37 % 101)).collect();
            add(o, code, &list[..doses], &list[..grams], P[code as usize]);
            add(o, code, &list[..doses], &list[..grams], 1);
        }
    }
    let limits = std::mem::take(o);
    let one_to_six = [1.0, 2.0, 3.0, 4.0, 5.0, 6.0];
    for code in 1..5u64 {
        let p = P[code as usize];
        // Lengths about the limits of each curve, rising, falling, level, below zero.
        for length in 0..=6 {
            let doses = &one_to_six[..length];
            let by = |f: fn(f64) -> f64| doses.iter().map(|&x| f(x)).collect::<Vec<f64>>();
            add(o, code, doses, &by(|x| x * 2.0), p);
            add(o, code, doses, &by(|x| 20.0 - x * x), p);
            add(o, code, doses, &by(|_| 4.0), p);
            add(o, code, doses, &by(|x| -x), p);
            add(o, code, doses, &by(|_| 0.0), p);
            add(o, code, doses, &by(|_| -0.0), p);
            add(o, code, doses, &by(|x| x * 1e-9), p);
            add(o, code, doses, &by(|_| f64::MAX), p);
            add(o, code, doses, &by(|x| if x > 2.0 { f64::MAX } else { -f64::MAX }), p);
            add(o, code, &vec![2.0; length], &by(|x| x), p);
        }
        // Zeros of both signs decide the largest and the smallest by their order.
        for signs in 0..32u32 {
            let zeros: Vec<f64> = (0..5).map(|i| if signs >> i & 1 == 1 { -0.0 } else { 0.0 }).collect();
            add(o, code, &one_to_six[..5], &zeros, p);
            let mut grams = zeros.clone();
            grams[4] = 2.0;
            add(o, code, &one_to_six[..5], &grams, p);
            grams[4] = -2.0;
            add(o, code, &one_to_six[..5], &grams, p);
            add(o, code, &zeros, &one_to_six[..5], p);
        }
        // Doses that merge: against the first of the run, at 1e-12 of it or of 1.
        for size in [1.0, 0.0, 1e-3, 1e3, -1e3, 1e300] {
            for gap in [4e-13, 9.99e-13, 1e-12, 1.0001e-12, 6e-13, 3e-12] {
                let step = gap * f64::max(size, 1.0);
                let doses: Vec<f64> = (0..6).map(|i| size + f64::from(i) * step).collect();
                add(o, code, &doses, &[1.0, 5.0, 2.0, 7.0, 9.0, 8.0], p);
            }
        }
        // Equal grams, whose order in the second sort decides.
        add(
            o,
            code,
            &[5.0, 1.0, 4.0, 2.0, 3.0, 6.0],
            &[2.0, 4.0, 4.0, 8.0, 2.0, 4.0],
            p,
        );
        add(
            o,
            code,
            &[6.0, 5.0, 4.0, 3.0, 2.0, 1.0],
            &[4.0, 4.0, 2.0, 2.0, 8.0, 8.0],
            p,
        );
        // The tests against 1e-8: a difference of doses, a difference of grams, a dose.
        for at in [moved(1e-8, -1), 1e-8, moved(1e-8, 1), -1e-8, moved(-1e-8, 1)] {
            add(o, code, &[0.0, at, 5.0], &[4.0, 2.0, 8.0], p);
            add(o, code, &[1.0, 2.0, 3.0, 4.0], &[0.0, at, 0.5 * at, 0.2 * at], p);
            add(o, code, &[at], &[3.0], p);
        }
        // The largest float divided: halves, quarters and the middle of two.
        for sign in [1.0, -1.0] {
            let grams = [1e308, 1.2e308, 1.5e308, 1.7e308].map(|x| sign * x);
            add(o, code, &[1.0, 2.0, 3.0, 4.0], &grams, p);
        }
        // Pairs that are skipped.
        for bad in [f64::NAN, f64::INFINITY, f64::NEG_INFINITY] {
            add(o, code, &[bad, 1.0, 2.0, 3.0, 4.0], &[1.0, 2.0, bad, 5.0, 9.0], p);
            add(o, code, &[bad; 5], &one_to_six[..5], p);
            add(o, code, &one_to_six[..5], &[bad; 5], p);
        }
        // Differences and sums that overflow.
        let m = f64::MAX;
        add(o, code, &[1.0, 1.0, 2.0, 3.0, 4.0], &[m, m, 1.0, 2.0, 3.0], p);
        add(o, code, &[1.0, 1.0, 2.0, 3.0, 4.0], &[-m, -m, 1.0, 2.0, 3.0], p);
        add(o, code, &[-m, -1.0, 2.0, m], &[1.0, 2.0, 4.0, 8.0], p);
        add(o, code, &[m, -1.0, 2.0, -m], &[1.0, 2.0, 4.0, 8.0], p);
        add(o, code, &[-m, m, 0.0, 1.0], &[2.0, 4.0, 1.0, 8.0], p);
    }
    vec![refused, limits, out]
}

pub fn start_random(r: &mut Random, kind: usize) -> Case {
    let code = r.upto(1, 4);
    let mut length = r.upto(0, 24) as usize;
    let true_values = realistic_values(r, code);
    let mut n_values = P[code as usize];
    let mut code = code;
    let (mut doses, mut grams) = (Vec::new(), Vec::new());
    if kind % 12 == 9 {
        length = if r.one_in(10) { r.upto(480, 512) } else { r.upto(24, 80) } as usize;
    }
    for _ in 0..length {
        let dose = r.between(0.0, 10.0);
        let gram = hundredths(grams_at(code, &true_values, dose) + r.noise());
        let (dose, gram) = match kind % 12 {
            0 | 9 => (hundredths(dose), gram),
            1 => (r.small(), r.small()),
            2 => (3.0 * (1.0 + r.below(40) as f64 * 1e-13), r.small()),
            3 => (r.wild(), r.wild()),
            4 => (
                if r.one_in(4) { r.wild() } else { dose },
                if r.one_in(4) { r.wild() } else { gram },
            ),
            5 => (r.pick(&[0.0, -0.0, 1.0, 2.0]), r.pick(&[0.0, -0.0, 1.0, -1.0])),
            6 => (dose.round(), r.power(1023)),
            7 => (hundredths(dose), -gram),
            8 => (r.power(1023), r.small()),
            10 => (moved(dose.round(), r.below(3) as i64 - 1), gram.round()),
            _ => (r.finite(), r.finite()),
        };
        doses.push(dose);
        grams.push(gram);
    }
    if kind % 12 == 11 {
        match r.below(4) {
            0 => code = r.pick(&[0, 5, 6, u64::MAX]),
            1 => {
                grams.pop();
            }
            2 => n_values = r.below(7) as usize,
            _ => {}
        }
    }
    Case::Start {
        code,
        doses,
        grams,
        n_values,
    }
}
