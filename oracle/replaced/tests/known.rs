//! Answers that were known before this oracle was built: document 01's rows, and inputs that tell readings of it
//! apart, worked out by another program over the same Rust.

use replaced::operations::answer;
use text::{Answer, Case, Line, Problem};

const INF: f64 = f64::INFINITY;

struct Fitted {
    values: Vec<f64>,
    effects: Vec<f64>,
    rss: f64,
    converged: bool,
    rounds: u64,
    trials: u64,
}

fn fit(problem: Problem, theta: &[f64], max_rounds: u64) -> Fitted {
    let case = Case::Fit {
        n_values: problem.starts.len(),
        n_effects_out: problem.group_count as usize * problem.effects.len(),
        problem,
        theta: theta.to_vec(),
        max_rounds,
    };
    match answer(&case) {
        Answer::Fit {
            number: 0,
            values,
            effects,
            rss,
            converged,
            rounds,
            trials,
        } => Fitted {
            values,
            effects,
            rss,
            converged: converged == 1,
            rounds,
            trials,
        },
        other => panic!("{other:?}"),
    }
}

/// The criterion and sigma2.
fn criterion(problem: Problem, theta: &[f64], max_rounds: u64, reml: u64, n_agq: u64) -> (f64, f64) {
    let case = Case::Criterion {
        n_values: problem.starts.len(),
        n_effects_out: problem.group_count as usize * problem.effects.len(),
        problem,
        theta: theta.to_vec(),
        max_rounds,
        reml,
        n_agq,
    };
    match answer(&case) {
        Answer::Criterion {
            number: 0,
            criterion,
            sigma2,
            ..
        } => (criterion, sigma2),
        other => panic!("{other:?}"),
    }
}

fn curve(code: u64, values: &[f64], dose: f64) -> [f64; 5] {
    let case = Case::Curve {
        code,
        values: values.to_vec(),
        dose,
    };
    match answer(&case) {
        Answer::Curve { number: 0, mean } => mean,
        other => panic!("{other:?}"),
    }
}

fn start(code: u64, doses: &[f64], grams: &[f64], n_values: usize) -> Vec<f64> {
    let case = Case::Start {
        code,
        doses: doses.to_vec(),
        grams: grams.to_vec(),
        n_values,
    };
    match answer(&case) {
        Answer::Start { number: 0, values } => values,
        other => panic!("{other:?}"),
    }
}

#[test]
fn rows_of_document_01() {
    let two_1023 = f64::from_bits(0x7fe0_0000_0000_0000);
    assert_eq!(curve(3, &[8.0, 1.0], 3.0)[..3], [6.0, 0.75, -1.5]);
    assert_eq!(
        curve(3, &[8.0, two_1023], two_1023)[..3],
        [4.0, 0.5, -f64::MIN_POSITIVE]
    );
    assert_eq!(curve(3, &[8.0, -3.0], 3.0)[0], INF);
    assert!(curve(3, &[8.0, 0.0], 0.0)[0].is_nan());
    let logistic = curve(1, &[200.0, 5.0, 350.0], 5.0);
    assert_eq!((logistic[0], logistic[1], logistic[3]), (100.0, 0.5, 0.0));
    assert_eq!(curve(2, &[90.0, 20.0, 0.0], 0.0)[0], 20.0);
    assert_eq!(start(3, &[1.0, 3.0], &[2.0, 6.0], 2), [6.0, 1.5]);
    assert_eq!(start(3, &[], &[], 2), [10.0, 1.0]);
    assert_eq!(
        start(1, &[0.0, 1.0, 2.0, 3.0], &[0.0, 2.0, 4.0, 8.0], 3),
        [8.0, 2.0, -1.0]
    );
    for (asked, order) in [(0, 0), (1, 0), (2, 3), (11, 11), (12, 11)] {
        assert!(matches!(answer(&Case::GhOrder(asked)), Answer::Whole(n) if n == order));
    }
}

#[test]
fn an_accepted_value_may_be_infinite() {
    let f = fit(
        Problem::one_group(1, &[(1.5e308, 0.0)], &[2], &[1e308, 1.5e308, 5e307]),
        &[1.0],
        3,
    );
    assert_eq!(f.values, [5.00024998749886e307, INF, 5e307]);
    assert_eq!((f.rss, f.converged, f.rounds), (0.0, true, 2));
}

#[test]
fn a_small_proposal_after_lost_attempts_ends_a_fit() {
    let f = fit(
        Problem::one_group(2, &[(4.0, 7.0), (2.0, -3.0), (2.0, 0.0)], &[2], &[2.0, 8.0, 1.0]),
        &[1.0],
        1000,
    );
    assert_eq!((f.converged, f.rounds, f.trials), (true, 9, 162));
}

#[test]
fn a_zero_pivot_after_lost_attempts_ends_a_fit() {
    let f = fit(
        Problem::one_group(4, &[(-1.0, 0.0)], &[1], &[1e27, 1.0, 2.0, -1.0]),
        &[1.0],
        1000,
    );
    assert_eq!(f.values, [1e27, 1.0, 2.0, -1.0]);
    assert_eq!((f.rounds, f.trials), (1, 140));
}

#[test]
fn a_covariance_that_overflows_gives_no_direction() {
    let readings = [(1.0, 4.0), (2.0, 5.3), (3.0, 6.0)];
    let f = fit(
        Problem::one_group(3, &readings, &[0, 1], &[8.0, 1.0]),
        &[1e200, 0.0, 1e200],
        1000,
    );
    assert_eq!(f.values, [8.0, 1.0]);
    assert_eq!((f.rounds, f.trials), (1, 0));
}

#[test]
fn the_floor_comes_before_the_projection() {
    let mut p = Problem::one_group(1, &[(1.0, 2.0), (2.0, 4.0), (3.0, 6.0)], &[0], &[8.0, 2.0, -1.0]);
    p.upper[2] = 1e-7;
    assert_eq!(fit(p, &[1.0], 1000).values[2], 1e-7);
}

#[test]
fn the_adjustment_comes_before_the_projection() {
    let mut p = Problem::one_group(1, &[(1.0, 2.0)], &[0], &[8.0, 2.0, 0.0]);
    p.lower[2] = 1.0;
    p.upper[2] = 10.0;
    assert_eq!(fit(p, &[1.0], 0).values, [8.0, 2.0, 10.0]);
}

#[test]
fn an_empty_group_is_penalised() {
    let mut p = Problem::one_group(3, &[(1.0, 4.0), (2.0, 5.3), (3.0, 6.0)], &[0], &[1.0, 1.0]);
    p.group_count = 2;
    p.group_lower[0] = 3.0;
    p.group_upper[0] = 7.0;
    assert_eq!(fit(p, &[2.0], 1000).effects, [-1.3796244927622041; 2]);
}

#[test]
fn every_rule_that_ends_a_fit() {
    let f = fit(Problem::one_group(3, &[(0.0, 1.0)], &[1], &[3.0, 5.0]), &[1.0], 1000);
    assert_eq!((f.converged, f.rounds, f.trials), (true, 1, 0));
    let f = fit(
        Problem::one_group(1, &[(0.0, -1.0)], &[2], &[5.0, 5.0, -1.0]),
        &[1.0],
        1000,
    );
    assert_eq!((f.converged, f.rounds, f.trials), (true, 9, 44));
    let f = fit(Problem::one_group(1, &[(0.0, 2.0)], &[1], &[0.0, 3.0, 5.0]), &[1.0], 1);
    assert_eq!((f.converged, f.rounds, f.trials), (false, 1, 1));
    let f = fit(
        Problem::one_group(4, &[(0.0, 4.0)], &[2], &[-1.0, 9.0, -2.0, -3.0]),
        &[1.0],
        1000,
    );
    assert_eq!((f.converged, f.rounds, f.trials), (false, 1, 240));
    let f = fit(Problem::one_group(3, &[(2.0, 3.0)], &[1], &[3.0, -2.0]), &[1.0], 1000);
    assert_eq!((f.converged, f.rounds, f.trials), (false, 1, 0));
}

#[test]
fn the_dearest_round_has_240_trials() {
    for effects in [&[0][..], &[1], &[0, 1]] {
        let p = Problem::one_group(3, &[(1.0, 2e200), (1.0, -1e200)], effects, &[1.0, 1.0]);
        let theta: &[f64] = if effects.len() == 2 { &[1.0, 0.0, 1.0] } else { &[1.0] };
        let f = fit(p, theta, 1000);
        assert_eq!((f.rounds, f.trials, &f.values[..]), (1, 240, &[1.0, 1.0][..]));
    }
}

#[test]
fn a_factor_that_is_none_is_an_infinite_determinant() {
    let p = || Problem::one_group(3, &[(0.0, 1.0)], &[0], &[8.0, 0.0]);
    assert_eq!(criterion(p(), &[1.0], 1000, 0, 0), (INF, 1e-12));
    let (c, sigma2) = criterion(p(), &[1.0], 1000, 1, 0);
    assert!(c.is_nan() && sigma2 == 1e-12);
}

#[test]
fn quadrature_that_is_none_adds_nothing() {
    let p = Problem::one_group(3, &[(2.0, 2.0)], &[0, 1], &[3.0, 1.0]);
    assert_eq!(criterion(p, &[1e7, 0.0, 1e6], 1, 0, 3).0, 6.642147470562527);
    let mut p = Problem::one_group(3, &[(1.0, 4.0), (2.0, 5.3), (3.0, 6.0), (0.0, 0.1)], &[0], &[8.0, 1.0]);
    p.groups = vec![0, 0, 0, 1];
    p.group_count = 2;
    for order in [0, 3] {
        assert_eq!(criterion(p.clone(), &[1e9], 5, 0, order).0, 29.337311682493084);
    }
    assert_ne!(criterion(p.clone(), &[1e7], 5, 0, 0).0, criterion(p, &[1e7], 5, 0, 3).0);
}

#[test]
fn a_search_without_a_number_keeps_the_right_part() {
    for (allowed, theta, narrowings) in [(1000, 19.99996352825455, 26), (0, 10.1, 0)] {
        let case = Case::Search {
            problem: Problem::one_group(3, &[(0.0, 1.0)], &[0], &[8.0, 0.0]),
            max_rounds: 1000,
            reml: 1,
            n_agq: 0,
            max_narrowings: allowed,
        };
        match answer(&case) {
            Answer::Search {
                number: 0,
                theta: t,
                criterion,
                narrowings: n,
                converged: 0,
                fits,
            } => {
                assert!(criterion.is_nan());
                assert_eq!((t, n, fits), (theta, narrowings, narrowings + 3));
            }
            other => panic!("{other:?}"),
        }
    }
}

fn found(line: &str) -> Option<Vec<f64>> {
    match answer(&Case::read(line).unwrap()) {
        Answer::Found(list) => list,
        other => panic!("{other:?}"),
    }
}

/// A case line of whole numbers, floats and lists of floats.
fn line(name: &str, sizes: &[u64], lists: &[&[f64]], last: Option<f64>) -> String {
    let mut out = Line::default();
    out.word(name);
    for &n in sizes {
        out.whole(n);
    }
    for list in lists {
        out.floats(list);
    }
    if let Some(x) = last {
        out.float(x);
    }
    out.0
}

#[test]
fn matrices_stand_row_after_row() {
    let a = [4.0, 99.0, 2.0, 10.0];
    assert_eq!(
        found(&line("cholesky", &[], &[&a], None)),
        Some(vec![2.0, 0.0, 1.0, 3.0])
    );
    let a = [0.0, 4.0, 2.0, 0.0];
    assert_eq!(
        found(&line("inverse", &[], &[&a], None)),
        Some(vec![0.0, 0.5, 0.25, 0.0])
    );
    assert_eq!(
        found(&line("solve", &[2], &[&a, &[8.0, 6.0]], None)),
        Some(vec![3.0, 2.0])
    );
    assert_eq!(found(&line("solve", &[1], &[&[-0.0], &[1.0]], None)), None);
    assert!(Case::read(&line("solve", &[2], &[&a, &[8.0]], None)).is_err());
}

/// Two curve values, one effect, two groups: all blocks differ, and every quotient is exact.
#[test]
fn a_direction_has_the_curve_values_and_then_each_group() {
    let lists: [&[f64]; 5] = [
        &[10.75, 1.0, 2.0, 18.0],
        &[1.0, 2.0, 3.0, 0.0],
        &[2.0, 4.0],
        &[5.0, 6.0],
        &[2.0, 8.0],
    ];
    assert_eq!(
        found(&line("direction", &[2, 1, 2], &lists, Some(0.0))),
        Some(vec![-0.25, 0.265625, 0.859375, 2.1875])
    );
    assert!(Case::read(&line("direction", &[2, 1, 3], &lists, Some(0.0))).is_err());
    let lists: [&[f64]; 5] = [&[1.0], &[1.0], &[-1e-8], &[1.0], &[1.0]];
    assert_eq!(found(&line("direction", &[1, 1, 1], &lists, Some(1.0))), None);
}
