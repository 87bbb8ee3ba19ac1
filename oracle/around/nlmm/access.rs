//! fit, criterion and search by position; a child of fit.rs, whose items are private. The covariance's inverse
//! of one or two effects never fails, so the Rust ends in no error or panic here, and a factor or inverse that is
//! none gives what the Rust gives: a determinant of +infinity, no quadrature.

use super::{optimize_theta_golden, NlmmProblem, NlmmStart};
use crate::hooks;
use crate::nlmm::mean_fn::builtin_mean;
use crate::operations::{kind, names};
use ndarray::Array1;
use std::sync::Arc;
use text::{Answer, Problem};

fn problem(p: &Problem) -> (NlmmProblem, NlmmStart) {
    let param_names = names(p.code);
    let start = param_names.iter().cloned().zip(p.starts.iter().copied()).collect();
    let problem = NlmmProblem {
        y: Arc::new(Array1::from_vec(p.grams.clone())),
        x: Arc::new(Array1::from_vec(p.doses.clone())),
        group: Arc::new(p.groups.iter().map(|&g| g as usize).collect()),
        m: p.group_count as usize,
        mean: builtin_mean(kind(p.code)),
        n_fix: param_names.len(),
        param_names,
        re_indices: p.effects.iter().map(|&e| e as usize).collect(),
        k_re: p.effects.len(),
        lower: p.lower.clone(),
        upper: p.upper.clone(),
        group_lower: p.group_lower.clone(),
        group_upper: p.group_upper.clone(),
    };
    (problem, start)
}

/// A problem and its start in the Rust's own types, from which each operation is one call.
pub struct Ready {
    problem: NlmmProblem,
    start: NlmmStart,
}

impl Ready {
    pub fn new(p: &Problem) -> Self {
        let (problem, start) = problem(p);
        Self { problem, start }
    }

    /// The values, the effects, the sum of squares, whether it converged, and the rounds.
    pub fn fit(&self, theta: &[f64], max_rounds: u64) -> (Vec<f64>, Array1<f64>, f64, bool, usize) {
        self.problem
            .inner_gauss_newton_status(theta, &self.start, max_rounds as usize)
    }

    /// The criterion, the values, sigma2 and the effects.
    pub fn criterion(
        &self,
        theta: &[f64],
        max_rounds: u64,
        reml: bool,
        n_agq: u64,
    ) -> (f64, Vec<f64>, f64, Array1<f64>) {
        self.problem
            .profile_objective(theta, &self.start, reml, max_rounds as usize, n_agq as usize)
    }

    /// Theta, the criterion, the narrowings and whether it converged. The ends are those of `optimize_nlmm_at_start`.
    pub fn search(&self, max_rounds: u64, reml: bool, n_agq: u64, max_narrowings: u64) -> (f64, f64, u64, bool) {
        optimize_theta_golden(
            &self.problem,
            &self.start,
            reml,
            max_rounds as usize,
            n_agq as usize,
            0.2,
            20.0,
            max_narrowings,
        )
    }
}

pub fn fit(p: &Problem, theta: &[f64], max_rounds: u64) -> Answer {
    let (values, b, rss, converged, rounds) = Ready::new(p).fit(theta, max_rounds);
    Answer::Fit {
        number: 0,
        values,
        effects: b.to_vec(),
        rss,
        converged: converged.into(),
        rounds: rounds as u64,
        trials: hooks::trials(),
    }
}

pub fn criterion(p: &Problem, theta: &[f64], max_rounds: u64, reml: bool, n_agq: u64) -> Answer {
    let (criterion, values, sigma2, b) = Ready::new(p).criterion(theta, max_rounds, reml, n_agq);
    Answer::Criterion {
        number: 0,
        values,
        effects: b.to_vec(),
        criterion,
        sigma2,
    }
}

pub fn search(p: &Problem, max_rounds: u64, reml: bool, n_agq: u64, max_narrowings: u64) -> Answer {
    let ready = Ready::new(p);
    hooks::reset();
    let (theta, criterion, narrowings, converged) = ready.search(max_rounds, reml, n_agq, max_narrowings);
    Answer::Search {
        number: 0,
        theta,
        criterion,
        narrowings,
        converged: converged.into(),
        fits: hooks::fits(),
    }
}
