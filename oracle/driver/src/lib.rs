//! Answers cases by libkemroul.a, through the declarations of bindings/rust.

pub use kemroul::sys as boundary;
use text::{Answer, Case, KEPT, KEPT_WHOLE};

macro_rules! problem_pointers {
    ($function:ident, $p:expr, $($rest:expr),* $(,)?) => {
        boundary::$function(
            $p.code,
            $p.doses.as_ptr(), $p.doses.len(),
            $p.grams.as_ptr(), $p.grams.len(),
            $p.groups.as_ptr(), $p.groups.len(),
            $p.group_count,
            $p.effects.as_ptr(), $p.effects.len(),
            $p.starts.as_ptr(), $p.starts.len(),
            $p.lower.as_ptr(), $p.lower.len(),
            $p.upper.as_ptr(), $p.upper.len(),
            $p.group_lower.as_ptr(), $p.group_lower.len(),
            $p.group_upper.as_ptr(), $p.group_upper.len(),
            $($rest),*
        )
    };
}

/// A lent list, filled beforehand, with a guard on each side that no call may touch.
struct Lent(Vec<f64>);

impl Lent {
    fn new(length: usize) -> Self {
        Self(vec![KEPT; length + 2])
    }

    fn pointer(&mut self) -> *mut f64 {
        self.0[1..].as_mut_ptr()
    }

    fn taken(mut self) -> Vec<f64> {
        let last = self.0.pop().map(f64::to_bits);
        let first = self.0.remove(0).to_bits();
        assert!(
            first == KEPT.to_bits() && last == Some(KEPT.to_bits()),
            "the call wrote beside a lent list"
        );
        self.0
    }
}

pub fn answer(case: &Case) -> Answer {
    match case {
        Case::Exp(x) => Answer::Float(unsafe { boundary::kemroul_exp(*x) }),
        Case::Ln(x) => Answer::Float(unsafe { boundary::kemroul_ln(*x) }),
        Case::Sqrt(x) => Answer::Float(unsafe { boundary::kemroul_sqrt(*x) }),
        Case::GhOrder(asked) => Answer::Whole(unsafe { boundary::kemroul_gh_order(*asked) }),
        Case::Curve { code, values, dose } => {
            let [mut mu, mut d0, mut d1, mut d2, mut d3] = [KEPT; 5];
            let number = unsafe {
                boundary::kemroul_curve(
                    *code,
                    values.as_ptr(),
                    values.len(),
                    *dose,
                    &mut mu,
                    &mut d0,
                    &mut d1,
                    &mut d2,
                    &mut d3,
                )
            };
            Answer::Curve {
                number,
                mean: [mu, d0, d1, d2, d3],
            }
        }
        Case::Start {
            code,
            doses,
            grams,
            n_values,
        } => {
            let mut values = Lent::new(*n_values);
            let number = unsafe {
                boundary::kemroul_start(
                    *code,
                    doses.as_ptr(),
                    doses.len(),
                    grams.as_ptr(),
                    grams.len(),
                    values.pointer(),
                    *n_values,
                )
            };
            Answer::Start {
                number,
                values: values.taken(),
            }
        }
        Case::Fit {
            problem: p,
            theta,
            max_rounds,
            n_values,
            n_effects_out,
        } => {
            let mut values = Lent::new(*n_values);
            let mut effects = Lent::new(*n_effects_out);
            let mut rss = KEPT;
            let [mut converged, mut rounds, mut trials] = [KEPT_WHOLE; 3];
            let number = unsafe {
                problem_pointers!(
                    kemroul_fit,
                    p,
                    theta.as_ptr(),
                    theta.len(),
                    *max_rounds,
                    values.pointer(),
                    *n_values,
                    effects.pointer(),
                    *n_effects_out,
                    &mut rss,
                    &mut converged,
                    &mut rounds,
                    &mut trials,
                )
            };
            Answer::Fit {
                number,
                values: values.taken(),
                effects: effects.taken(),
                rss,
                converged,
                rounds,
                trials,
            }
        }
        Case::Criterion {
            problem: p,
            theta,
            max_rounds,
            reml,
            n_agq,
            n_values,
            n_effects_out,
        } => {
            let mut values = Lent::new(*n_values);
            let mut effects = Lent::new(*n_effects_out);
            let [mut criterion, mut sigma2] = [KEPT; 2];
            let number = unsafe {
                problem_pointers!(
                    kemroul_criterion,
                    p,
                    theta.as_ptr(),
                    theta.len(),
                    *max_rounds,
                    *reml,
                    *n_agq,
                    values.pointer(),
                    *n_values,
                    effects.pointer(),
                    *n_effects_out,
                    &mut criterion,
                    &mut sigma2,
                )
            };
            Answer::Criterion {
                number,
                values: values.taken(),
                effects: effects.taken(),
                criterion,
                sigma2,
            }
        }
        Case::Search {
            problem: p,
            max_rounds,
            reml,
            n_agq,
            max_narrowings,
        } => {
            let [mut theta, mut criterion] = [KEPT; 2];
            let [mut narrowings, mut converged, mut fits] = [KEPT_WHOLE; 3];
            let number = unsafe {
                problem_pointers!(
                    kemroul_search,
                    p,
                    *max_rounds,
                    *reml,
                    *n_agq,
                    *max_narrowings,
                    &mut theta,
                    &mut criterion,
                    &mut narrowings,
                    &mut converged,
                    &mut fits,
                )
            };
            Answer::Search {
                number,
                theta,
                criterion,
                narrowings,
                converged,
                fits,
            }
        }
        // The linear algebra below the header's functions: only the oracle answers these.
        Case::Solve { .. } | Case::Inverse(_) | Case::Cholesky(_) | Case::Direction { .. } => {
            eprintln!("driver: the archive has no operation for {case:?}");
            std::process::exit(2);
        }
    }
}
