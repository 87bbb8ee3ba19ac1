//! Document 01's operations over the published Rust: refusals first, then lists by position in the place of names;
//! and the linear algebra below them.

use crate::nlmm::block_solve;
use crate::nlmm::fit::access;
use crate::nlmm::formula::NlmmMeanKind;
use crate::nlmm::mean_fn::NlmmMeanEval;
use crate::nlmm::self_start::self_start;
use crate::quadrature::resolve_gh_order;
use ndarray::{Array1, Array2};
use ndarray_linalg::{Cholesky, Inverse, Solve, UPLO};
use text::{Answer, Case, KEPT, KEPT_WHOLE};

pub fn kind(code: u64) -> NlmmMeanKind {
    match code {
        1 => NlmmMeanKind::Sslogis,
        2 => NlmmMeanKind::Ssasymp,
        3 => NlmmMeanKind::Ssmicmen,
        4 => NlmmMeanKind::Ssfpl,
        _ => unreachable!("refused before"),
    }
}

/// The names that the Rust's runs give a curve's values, in the order of the positions.
pub fn names(code: u64) -> Vec<String> {
    let names: &[&str] = match code {
        1 => &["Asym", "xmid", "scal"],
        2 => &["Asym", "R0", "lrc"],
        3 => &["Vmax", "K"],
        4 => &["A", "B", "xmid", "scal"],
        _ => unreachable!("refused before"),
    };
    names.iter().map(|name| name.to_string()).collect()
}

fn curve(code: u64, values: &[f64], dose: f64) -> Answer {
    let number = refusals::curve(code, values);
    let mut mean = [KEPT; 5];
    if number == 0 {
        let (mu, gradients) = kind(code).eval(dose, values);
        mean = [mu, 0.0, 0.0, 0.0, 0.0];
        mean[1..=gradients.len()].copy_from_slice(&gradients);
    }
    Answer::Curve { number, mean }
}

fn start(code: u64, doses: &[f64], grams: &[f64], n_values: usize) -> Answer {
    let number = refusals::start(code, doses, grams, n_values);
    let mut values = vec![KEPT; n_values];
    if number == 0 {
        let names = names(code);
        let x = Array1::from_vec(doses.to_vec());
        let y = Array1::from_vec(grams.to_vec());
        let by_name = self_start(kind(code), &x, &y, &names);
        values = names.iter().map(|name| by_name[name]).collect();
    }
    Answer::Start { number, values }
}

/// A matrix from its entries row after row.
pub fn matrix(rows: usize, columns: usize, entries: &[f64]) -> Array2<f64> {
    let mut out = Array2::zeros((rows, columns));
    for row in 0..rows {
        for column in 0..columns {
            out[[row, column]] = entries[row * columns + column];
        }
    }
    out
}

fn entries(matrix: Array2<f64>) -> Vec<f64> {
    matrix.entries().to_vec()
}

pub fn answer(case: &Case) -> Answer {
    match case {
        Case::Exp(x) => Answer::Float(x.exp()),
        Case::Ln(x) => Answer::Float(x.ln()),
        Case::Sqrt(x) => Answer::Float(x.sqrt()),
        Case::GhOrder(asked) => Answer::Whole(resolve_gh_order(*asked as usize).unwrap_or(0) as u64),
        Case::Curve { code, values, dose } => curve(*code, values, *dose),
        Case::Start {
            code,
            doses,
            grams,
            n_values,
        } => start(*code, doses, grams, *n_values),
        Case::Fit {
            problem,
            theta,
            max_rounds,
            n_values,
            n_effects_out,
        } => match refusals::fit(problem, theta, *max_rounds, *n_values, *n_effects_out) {
            0 => access::fit(problem, theta, *max_rounds),
            number => Answer::Fit {
                number,
                values: vec![KEPT; *n_values],
                effects: vec![KEPT; *n_effects_out],
                rss: KEPT,
                converged: KEPT_WHOLE,
                rounds: KEPT_WHOLE,
                trials: KEPT_WHOLE,
            },
        },
        Case::Criterion {
            problem,
            theta,
            max_rounds,
            reml,
            n_agq,
            n_values,
            n_effects_out,
        } => match refusals::fit(problem, theta, *max_rounds, *n_values, *n_effects_out) {
            0 => access::criterion(problem, theta, *max_rounds, *reml != 0, *n_agq),
            number => Answer::Criterion {
                number,
                values: vec![KEPT; *n_values],
                effects: vec![KEPT; *n_effects_out],
                criterion: KEPT,
                sigma2: KEPT,
            },
        },
        Case::Search {
            problem,
            max_rounds,
            reml,
            n_agq,
            max_narrowings,
        } => match refusals::search(problem, *max_rounds, *max_narrowings) {
            0 => access::search(problem, *max_rounds, *reml != 0, *n_agq, *max_narrowings),
            number => Answer::Search {
                number,
                theta: KEPT,
                criterion: KEPT,
                narrowings: KEPT_WHOLE,
                converged: KEPT_WHOLE,
                fits: KEPT_WHOLE,
            },
        },
        Case::Solve { n, a, b } => {
            let solved = matrix(*n, *n, a).solve(&Array1::from_vec(b.clone()));
            Answer::Found(solved.ok().map(|x| x.to_vec()))
        }
        Case::Inverse(a) => Answer::Found(matrix(2, 2, a).inv().ok().map(entries)),
        Case::Cholesky(a) => Answer::Found(matrix(2, 2, a).cholesky(UPLO::Lower).ok().map(entries)),
        Case::Direction { blocks, damping } => Answer::Found(block_solve::access::direction(blocks, *damping)),
    }
}
