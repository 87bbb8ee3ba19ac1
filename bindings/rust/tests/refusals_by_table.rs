//! Every refusal of every function through the wrapper, the order of the numbers, and that a refused call keeps what it
//! was lent.

mod common;

use common::faults::{self, Call, SOUND, TWO_EFFECTS};
use common::KEPT;
use kemroul::{Curve, Effects, Likelihood, Problem, Refusal, Theta};
use std::collections::BTreeSet;

/// The call in the types. They leave out a wrong code and other numbers of effects or thetas; nan_places.rs has those.
fn typed(c: &Call) -> Option<(Problem<'static>, Theta)> {
    let problem = Problem {
        curve: Curve::from_code(c.code).ok()?,
        doses: c.doses,
        grams: c.grams,
        groups: c.groups,
        group_count: c.group_count,
        effects: match *c.effects {
            [index] => Effects::One(index),
            [first, second] => Effects::Two([first, second]),
            _ => return None,
        },
        starts: c.starts,
        lower: c.lower,
        upper: c.upper,
        group_lower: c.group_lower,
        group_upper: c.group_upper,
    };
    let theta = match *c.theta {
        [theta] => Theta::One(theta),
        [a, b, c] => Theta::Two([a, b, c]),
        _ => return None,
    };
    Some((problem, theta))
}

fn refusal(number: u64) -> Refusal {
    Refusal::ALL[number as usize - 1]
}

/// The calls that the types have, which are some of each of the numbers.
fn refused(calls: Vec<(u64, Call)>, numbers: &[u64]) -> Vec<(Refusal, Call, Problem<'static>, Theta)> {
    let with_types = |(number, c)| typed(&c).map(|(problem, theta)| (refusal(number), c, problem, theta));
    let all: Vec<_> = calls.into_iter().filter_map(with_types).collect();
    let met: BTreeSet<u64> = all.iter().map(|(refusal, ..)| refusal.number()).collect();
    assert!(met.iter().eq(numbers));
    all
}

#[test]
fn refused_fits_and_criteria() {
    for (refusal, c, problem, theta) in refused(faults::refused_fits(), &[2, 3, 4, 5, 6, 7, 8, 9, 10]) {
        let (mut values, mut effects) = (vec![KEPT; c.n_values], vec![KEPT; c.n_effects_out]);
        let fit = problem.fit(&theta, c.max_rounds, &mut values, &mut effects);
        assert_eq!(fit, Err(refusal), "{c:?}");
        for likelihood in [Likelihood::Ml, Likelihood::Reml] {
            let criterion = problem.criterion(&theta, c.max_rounds, likelihood, 3, &mut values, &mut effects);
            assert_eq!(criterion, Err(refusal), "{c:?}");
        }
        assert!(values.iter().chain(&effects).all(|&x| x == KEPT), "{c:?}");
    }
}

#[test]
fn refused_searches() {
    for (refusal, c, problem, _) in refused(faults::refused_searches(), &[2, 3, 4, 5, 6, 7, 8, 10]) {
        let search = problem.search(c.max_rounds, Likelihood::Ml, 0, c.max_narrowings);
        assert_eq!(search, Err(refusal), "{c:?}");
    }
}

#[test]
fn refused_curves_and_starts() {
    for (number, (code, n)) in faults::refused_curves() {
        let answer = Curve::from_code(code).and_then(|curve| curve.at(&[1.0; 5][..n], 3.0));
        assert_eq!(answer, Err(refusal(number)), "{code} {n}");
    }
    for (number, s) in faults::refused_starts() {
        let mut values = vec![KEPT; s.n_values];
        let answer = Curve::from_code(s.code).and_then(|curve| curve.start(s.doses, s.grams, &mut values));
        assert_eq!(answer, Err(refusal(number)), "{s:?}");
        assert_eq!(values, vec![KEPT; s.n_values], "{s:?}");
    }
    for code in 1..=4 {
        assert_eq!(Curve::from_code(code).unwrap().code(), code);
    }
}

/// All of the lent lists is written, and nothing beside them.
#[test]
fn a_call_without_faults() {
    let (problem, theta) = typed(&SOUND).unwrap();
    let beside = |list: &[f64]| list.iter().map(|&x| x == KEPT).collect::<Vec<_>>();
    let around = |n| [vec![true], vec![false; n], vec![true]].concat();

    let (mut values, mut effects) = ([KEPT; 4], [KEPT; 34]);
    let fit = problem.fit(&theta, 10, &mut values[1..3], &mut effects[1..33]).unwrap();
    assert_eq!((beside(&values), beside(&effects)), (around(2), around(32)));
    assert!(1 <= fit.rounds && fit.rounds <= 10 && fit.trials <= 240 * fit.rounds);

    let (mut values, mut effects) = ([KEPT; 4], [KEPT; 34]);
    let reml = Likelihood::Reml;
    let criterion = problem.criterion(&theta, 10, reml, 3, &mut values[1..3], &mut effects[1..33]);
    assert!(criterion.is_ok());
    assert_eq!((beside(&values), beside(&effects)), (around(2), around(32)));

    let mut values = [KEPT; 4];
    let start = Curve::Ssmicmen.start(SOUND.doses, SOUND.grams, &mut values[1..3]);
    assert_eq!((start, beside(&values)), (Ok(()), around(2)));
}

#[test]
fn the_limits_are_taken() {
    let (problem, _) = typed(&SOUND).unwrap();
    assert!(problem.search(1000, Likelihood::Ml, 0, 1000).is_ok());
    let (problem, theta) = typed(&TWO_EFFECTS).unwrap();
    let (mut values, mut effects) = ([0.0; 2], [0.0; 64]);
    assert!(problem.fit(&theta, 1000, &mut values, &mut effects).is_ok());
}
