//! The functions of libkemroul.a: the fit of a tinting machine's dosing curves, proved to equal its definition bit for
//! bit (docs/PROMISES.md of the repository).
//!
//! Nothing here allocates. Lists for results are lent. A call with a numbered fault returns a [`Refusal`], and every list
//! that it was lent keeps its contents. Nothing panics. The types rule out wrong codes, wrong flags and lists without
//! their lengths; the library refuses everything else by number, so nothing has to be looked at beforehand. It has no
//! state: calls from several threads are independent.
//!
//! ```
//! use kemroul::{Curve, Effects, Likelihood, Problem, Theta};
//!
//! let doses = [1.0, 2.0, 4.0, 1.0, 2.0, 4.0];
//! let grams = [4.0, 5.3, 6.5, 4.2, 5.6, 6.8];
//! let [none_below, none_above] = [[f64::NEG_INFINITY; 2], [f64::INFINITY; 2]];
//! let mut starts = [0.0; 2];
//! Curve::Ssmicmen.start(&doses, &grams, &mut starts)?;
//!
//! let problem = Problem {
//!     curve: Curve::Ssmicmen,
//!     doses: &doses,
//!     grams: &grams,
//!     groups: &[0, 0, 0, 1, 1, 1],
//!     group_count: 2,
//!     effects: Effects::One(0),
//!     starts: &starts,
//!     lower: &none_below,
//!     upper: &none_above,
//!     group_lower: &none_below,
//!     group_upper: &none_above,
//! };
//! let found = problem.search(200, Likelihood::Ml, 0, 30)?;
//! let (mut values, mut effects) = ([0.0; 2], [0.0; 2]);
//! let fit = problem.fit(&Theta::One(found.theta), 200, &mut values, &mut effects)?;
//! assert!(fit.converged && fit.rss < 0.1);
//! # Ok::<(), kemroul::Refusal>(())
//! ```

#![no_std]
#![deny(missing_docs)]

mod curve;
mod problem;
mod refusal;
pub mod sys;

pub use curve::{Curve, Mean};
pub use problem::{Criterion, Effects, Fit, Likelihood, Problem, Search, Theta};
pub use refusal::Refusal;

/// e to the power x, as fdlibm 5.3 computes it.
pub fn exp(x: f64) -> f64 {
    // Sound: any float is taken, and no pointer is.
    unsafe { sys::kemroul_exp(x) }
}

/// The natural logarithm of x, as fdlibm 5.3 computes it.
pub fn ln(x: f64) -> f64 {
    // Sound: any float is taken, and no pointer is.
    unsafe { sys::kemroul_ln(x) }
}

/// The square root, rounded to the nearest.
pub fn sqrt(x: f64) -> f64 {
    // Sound: any float is taken, and no pointer is.
    unsafe { sys::kemroul_sqrt(x) }
}

/// The order of the Gauss-Hermite rule taken where so many points are asked for: 3, 5, 7, 9, 11 or none.
pub fn gh_order(asked: u64) -> Option<u64> {
    // Sound: any number is taken, and no pointer is.
    match unsafe { sys::kemroul_gh_order(asked) } {
        0 => None,
        order => Some(order),
    }
}
