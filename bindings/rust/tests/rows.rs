//! Document 01's rows, as far as the header has the functions, and its limits.

mod common;

use common::problem;
use kemroul::{gh_order, Curve, Effects, Problem, Refusal, Theta};

#[test]
fn rows_of_the_curves() {
    let two_1023 = f64::from_bits(0x7fe0_0000_0000_0000);
    let micmen = |values: [f64; 2], dose| Curve::Ssmicmen.at(&values, dose).unwrap();
    let m = micmen([8.0, 1.0], 3.0);
    assert_eq!((m.grams, m.gradient), (6.0, [0.75, -1.5, 0.0, 0.0]));
    let m = micmen([8.0, two_1023], two_1023);
    assert_eq!(
        (m.grams, m.gradient[..2].to_vec()),
        (4.0, vec![0.5, -f64::MIN_POSITIVE])
    );
    assert_eq!(micmen([8.0, -3.0], 3.0).grams, f64::INFINITY);
    assert!(micmen([8.0, 0.0], 0.0).grams.is_nan());
    let m = Curve::Sslogis.at(&[200.0, 5.0, 350.0], 5.0).unwrap();
    assert_eq!((m.grams, m.gradient[0], m.gradient[2]), (100.0, 0.5, 0.0));
    assert_eq!(Curve::Ssasymp.at(&[90.0, 20.0, 0.0], 0.0).unwrap().grams, 20.0);
    // Curve 4 halfway: the mean of A and B.
    assert_eq!(Curve::Ssfpl.at(&[2.0, 8.0, 5.0, 1.0], 5.0).unwrap().grams, 5.0);
}

#[test]
fn gradients_past_the_last_are_plus_zero() {
    for curve in Curve::ALL {
        let m = curve.at(&[2.0, 3.0, 5.0, 7.0][..curve.n_values()], 1.5).unwrap();
        for (i, d) in m.gradient.iter().enumerate() {
            assert_eq!(d.to_bits() == 0, i >= curve.n_values(), "{curve:?} {i}");
        }
    }
}

#[test]
fn rows_of_the_orders() {
    for (asked, order) in [
        (0, None),
        (1, None),
        (2, Some(3)),
        (11, Some(11)),
        (12, Some(11)),
        (u64::MAX, Some(11)),
    ] {
        assert_eq!(gh_order(asked), order);
    }
}

#[test]
fn rows_of_the_starts() {
    let mut two = [0.0; 2];
    Curve::Ssmicmen.start(&[1.0, 3.0], &[2.0, 6.0], &mut two).unwrap();
    assert_eq!(two, [6.0, 1.5]);
    Curve::Ssmicmen.start(&[], &[], &mut two).unwrap();
    assert_eq!(two, [10.0, 1.0]);
    let mut three = [0.0; 3];
    Curve::Sslogis
        .start(&[0.0, 1.0, 2.0, 3.0], &[0.0, 2.0, 4.0, 8.0], &mut three)
        .unwrap();
    assert_eq!(three, [8.0, 2.0, -1.0]);
}

fn fit_of(p: Problem) -> Result<kemroul::Fit, Refusal> {
    let (mut values, mut effects) = (vec![0.0; p.curve.n_values()], vec![0.0; p.n_effects()]);
    p.fit(&Theta::One(1.0), 2, &mut values, &mut effects)
}

#[test]
fn rows_of_the_limits() {
    let doses: Vec<f64> = (0..513).map(|i| 1.0 + i as f64).collect();
    let grams: Vec<f64> = doses.iter().map(|x| 8.0 * x / (50.0 + x)).collect();
    let of = |n: usize| problem(Curve::Ssmicmen, &doses[..n], &grams[..n], Effects::One(0), &[7.0, 40.0]);
    assert!(fit_of(of(512)).is_ok());
    assert_eq!(fit_of(of(513)), Err(Refusal::Readings));
    assert!(fit_of(Problem {
        group_count: 32,
        ..of(5)
    })
    .is_ok());
    assert_eq!(
        fit_of(Problem {
            group_count: 33,
            ..of(5)
        }),
        Err(Refusal::Groups)
    );
    let equal = [7.0, 40.0];
    assert!(fit_of(Problem {
        lower: &equal,
        upper: &equal,
        group_lower: &equal,
        group_upper: &equal,
        ..of(5)
    })
    .is_ok());
    let mut two = [0.0; 2];
    assert!(Curve::Ssmicmen.start(&doses[..512], &grams[..512], &mut two).is_ok());
    assert_eq!(Curve::Ssmicmen.start(&doses, &grams, &mut two), Err(Refusal::Readings));
}
