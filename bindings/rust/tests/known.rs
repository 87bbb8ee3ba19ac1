//! Answers that were known before: R's Orange data as lme4 fits it, and fits worked out with the Rust.

mod common;

use common::{orange, problem};
use kemroul::{exp, ln, sqrt, Curve, Effects, Likelihood, Problem, Theta};

const INF: f64 = f64::INFINITY;

/// fdlibm 5.3's, by Java's StrictMath: exp(1) is not the float nearest to e.
#[test]
fn exp_ln_sqrt() {
    assert_eq!(exp(1.0).to_bits(), 0x4005_bf0a_8b14_576a);
    assert_eq!(
        (exp(710.0), exp(-746.0).to_bits(), ln(0.0), ln(1.0)),
        (INF, 0, -INF, 0.0)
    );
    assert!(exp(f64::NAN).is_nan() && ln(-1.0).is_nan() && sqrt(-1.0).is_nan());
    assert_eq!(sqrt(-0.0).to_bits(), (-0.0f64).to_bits());
    for x in [2.0, 0.1, 5e-324, f64::MAX, 1e300] {
        assert_eq!(sqrt(x), x.sqrt());
    }
}

/// lme4's nlmer answers theta 4.0350 and deviance 263.14; the Rust 4.0353 and 263.1689.
#[test]
fn orange_as_lme4_fits_it() {
    let (doses, grams, groups) = orange();
    let mut starts = [0.0; 3];
    Curve::Sslogis.start(&doses, &grams, &mut starts).unwrap();
    assert!(starts[2] < 0.0, "for rising data scal is negative");
    starts[2] = -starts[2];
    let all = problem(Curve::Sslogis, &doses, &grams, Effects::One(0), &starts);
    let p = Problem {
        groups: &groups,
        group_count: 5,
        ..all
    };

    let found = p.search(200, Likelihood::Ml, 0, 30).unwrap();
    assert!((found.theta - 4.0350).abs() < 1e-3 && (found.criterion - 263.14).abs() < 0.05);
    assert_eq!((found.narrowings, found.converged, found.fits), (26, true, 29));

    let theta = Theta::One(found.theta);
    let (mut values, mut effects) = ([0.0; 3], [0.0; 5]);
    let fit = p.fit(&theta, 200, &mut values, &mut effects).unwrap();
    assert!(fit.converged && fit.trials <= 240 * fit.rounds);
    assert!(
        (values[0] - 191.06).abs() < 0.01 && (values[1] - 722.61).abs() < 0.01 && (values[2] - 344.20).abs() < 0.01
    );

    // The criterion fits the same, and is the one that the search answered.
    let (mut again, mut effects_again) = ([0.0; 3], [0.0; 5]);
    let c = p
        .criterion(&theta, 200, Likelihood::Ml, 0, &mut again, &mut effects_again)
        .unwrap();
    assert_eq!((again, effects_again, c.criterion), (values, effects, found.criterion));

    // The rss is that of the curves at the readings.
    let rss: f64 = (0..35)
        .map(|i| {
            let own = [values[0] + effects[groups[i] as usize], values[1], values[2]];
            let r = grams[i] - Curve::Sslogis.at(&own, doses[i]).unwrap().grams;
            r * r
        })
        .sum();
    assert!((rss - fit.rss).abs() < 1e-9 * rss);
}

/// The lists and the answer of a fit of one group.
fn fit(p: &Problem, theta: Theta, max_rounds: u64) -> (Vec<f64>, Vec<f64>, kemroul::Fit) {
    let (mut values, mut effects) = (vec![0.0; p.curve.n_values()], vec![0.0; p.n_effects()]);
    let answer = p.fit(&theta, max_rounds, &mut values, &mut effects).unwrap();
    (values, effects, answer)
}

#[test]
fn the_dearest_round_has_240_trials() {
    let p = problem(
        Curve::Ssmicmen,
        &[1.0, 1.0],
        &[2e200, -1e200],
        Effects::One(0),
        &[1.0, 1.0],
    );
    let (values, _, f) = fit(&p, Theta::One(1.0), 1000);
    assert_eq!((f.rounds, f.trials, values), (1, 240, vec![1.0, 1.0]));
    let two = Problem {
        effects: Effects::Two([0, 1]),
        ..p
    };
    let (_, effects, f) = fit(&two, Theta::Two([1.0, 0.0, 1.0]), 1000);
    assert_eq!((f.rounds, f.trials, effects), (1, 240, vec![0.0, 0.0]));
}

#[test]
fn every_rule_that_ends_a_fit() {
    let one_reading = |curve, dose: f64, grams: f64, effect, starts: &[f64], rounds| {
        let (doses, grams) = ([dose], [grams]);
        let p = problem(curve, &doses, &grams, Effects::One(effect), starts);
        let (_, _, f) = fit(&p, Theta::One(1.0), rounds);
        (f.converged, f.rounds, f.trials)
    };
    // Converged at once, and after rounds; no rounds left; no trial that wins; no direction.
    assert_eq!(
        one_reading(Curve::Ssmicmen, 0.0, 1.0, 1, &[3.0, 5.0], 1000),
        (true, 1, 0)
    );
    assert_eq!(
        one_reading(Curve::Sslogis, 0.0, -1.0, 2, &[5.0, 5.0, -1.0], 1000),
        (true, 9, 44)
    );
    assert_eq!(
        one_reading(Curve::Sslogis, 0.0, 2.0, 1, &[0.0, 3.0, 5.0], 1),
        (false, 1, 1)
    );
    assert_eq!(
        one_reading(Curve::Ssfpl, 0.0, 4.0, 2, &[-1.0, 9.0, -2.0, -3.0], 1000),
        (false, 1, 240)
    );
    assert_eq!(
        one_reading(Curve::Ssmicmen, 2.0, 3.0, 1, &[3.0, -2.0], 1000),
        (false, 1, 0)
    );
}

#[test]
fn no_rounds_return_the_adjusted_projected_start() {
    let (lower, upper) = ([-INF, -INF, 1.0], [INF, INF, 10.0]);
    let p = problem(Curve::Sslogis, &[1.0], &[2.0], Effects::One(0), &[8.0, 2.0, 0.0]);
    let p = Problem {
        lower: &lower,
        upper: &upper,
        ..p
    };
    let (values, effects, f) = fit(&p, Theta::One(1.0), 0);
    assert_eq!((values, effects), (vec![8.0, 2.0, 10.0], vec![0.0]));
    assert_eq!((f.converged, f.rounds, f.trials), (false, 0, 0));
}

#[test]
fn an_empty_group_is_penalised() {
    let (group_lower, group_upper) = ([3.0, -INF], [7.0, INF]);
    let p = problem(
        Curve::Ssmicmen,
        &[1.0, 2.0, 3.0],
        &[4.0, 5.3, 6.0],
        Effects::One(0),
        &[1.0, 1.0],
    );
    let p = Problem {
        group_count: 2,
        group_lower: &group_lower,
        group_upper: &group_upper,
        ..p
    };
    let (_, effects, _) = fit(&p, Theta::One(2.0), 1000);
    assert_eq!(effects, [-1.3796244927622041; 2]);
}

#[test]
fn a_criterion_without_a_number() {
    let p = problem(Curve::Ssmicmen, &[0.0], &[1.0], Effects::One(0), &[8.0, 0.0]);
    let (mut values, mut effects) = ([0.0; 2], [0.0; 1]);
    let ml = p
        .criterion(&Theta::One(1.0), 1000, Likelihood::Ml, 0, &mut values, &mut effects)
        .unwrap();
    assert_eq!((ml.criterion, ml.sigma2), (INF, 1e-12));
    let reml = p
        .criterion(&Theta::One(1.0), 1000, Likelihood::Reml, 0, &mut values, &mut effects)
        .unwrap();
    assert!(reml.criterion.is_nan() && reml.sigma2 == 1e-12);
    // The search goes on, and keeps the right part.
    for (allowed, theta, narrowings) in [(1000, 19.99996352825455, 26), (0, 10.1, 0)] {
        let found = p.search(1000, Likelihood::Reml, 0, allowed).unwrap();
        assert!(found.criterion.is_nan() && !found.converged);
        assert_eq!(
            (found.theta, found.narrowings, found.fits),
            (theta, narrowings, narrowings + 3)
        );
    }
}

#[test]
fn counts_of_a_search() {
    let p = problem(
        Curve::Ssmicmen,
        &[1.0, 2.0, 3.0],
        &[4.0, 5.3, 6.0],
        Effects::One(0),
        &[8.0, 1.0],
    );
    for allowed in [0, 1, 25, 26, 27, 1000] {
        let found = p.search(20, Likelihood::Ml, 0, allowed).unwrap();
        assert_eq!((found.narrowings, found.fits), (allowed.min(26), allowed.min(26) + 3));
    }
}

/// There is no state: what other threads call meanwhile changes nothing.
#[test]
fn threads() {
    let (doses, grams, groups) = orange();
    let searched = &|reml| {
        let all = problem(Curve::Sslogis, &doses, &grams, Effects::One(0), &[200.0, 725.0, 350.0]);
        let p = Problem {
            groups: &groups,
            group_count: 5,
            ..all
        };
        let likelihood = if reml { Likelihood::Reml } else { Likelihood::Ml };
        p.search(200, likelihood, 0, 30).unwrap()
    };
    let alone = [searched(false), searched(true)];
    assert_ne!(alone[0].theta, alone[1].theta);
    std::thread::scope(|scope| {
        let calls: Vec<_> = (0..8).map(|i| scope.spawn(move || searched(i % 2 == 1))).collect();
        for (i, call) in calls.into_iter().enumerate() {
            assert_eq!(call.join().unwrap(), alone[i % 2]);
        }
    });
}
