//! What is fitted, and the fit, the criterion and the search.

use crate::{sys, Curve, Refusal};

/// The curve values, by their index from 0, that have an effect in each group: there a group's own value is the
/// common one plus its effect. The order counts.
#[derive(Clone, Copy, Debug, PartialEq, Eq)]
pub enum Effects {
    /// One value.
    One(u64),
    /// Two different ones.
    Two([u64; 2]),
}

impl Effects {
    fn list(&self) -> &[u64] {
        match self {
            Effects::One(index) => core::slice::from_ref(index),
            Effects::Two(both) => both,
        }
    }

    /// How many: the length of a list of effects is this times the group count.
    pub fn count(&self) -> usize {
        self.list().len()
    }
}

/// How freely a group's own value may differ: an effect b adds (b / theta)² to the sum of the squared differences.
///
/// So theta is the effects' standard deviation divided by that of a reading: spread = theta · √sigma2. It is not the
/// spread itself: R's nlme finds a spread of 3.65 and a residual deviation of 0.719 for Loblolly, and that is theta 5.08
/// here. (Document 01, the project's scope paper, has 'theta in absolute units; the penalty is not scaled by the residual
/// variance': (b / theta)² is added as it is, not times sigma2.) Entries on the factor's diagonal below 1e-8 count as 1e-8.
#[derive(Clone, Copy, Debug, PartialEq)]
pub enum Theta {
    /// Of one effect.
    One(f64),
    /// Of two: the lower factor by columns.
    Two([f64; 3]),
}

impl Theta {
    fn list(&self) -> &[f64] {
        match self {
            Theta::One(theta) => core::slice::from_ref(theta),
            Theta::Two(all) => all,
        }
    }
}

/// What the criterion maximises.
#[derive(Clone, Copy, Debug, PartialEq, Eq)]
pub enum Likelihood {
    /// Maximum likelihood.
    Ml,
    /// Restricted maximum likelihood.
    Reml,
}

impl Likelihood {
    fn flag(self) -> u64 {
        match self {
            Likelihood::Ml => 0,
            Likelihood::Reml => 1,
        }
    }
}

/// The readings and everything else that a fit, a criterion and a search share. Any contents are taken: what the
/// types leave open, the library refuses by number.
#[derive(Clone, Copy, Debug, PartialEq)]
pub struct Problem<'a> {
    /// The curve, with p values.
    pub curve: Curve,
    /// The doses, 1 to 512 of them.
    pub doses: &'a [f64],
    /// The weights, one for each dose.
    pub grams: &'a [f64],
    /// The group of each reading, from 0.
    pub groups: &'a [u64],
    /// The number of groups, 1 to 32. A group may have no readings.
    pub group_count: u64,
    /// Which values have an effect.
    pub effects: Effects,
    /// p starting values.
    pub starts: &'a [f64],
    /// p lower bounds; minus infinity where there is none.
    pub lower: &'a [f64],
    /// p upper bounds; infinity where there is none. Equal bounds hold a value fixed.
    pub upper: &'a [f64],
    /// p lower bounds of a group's own values, counted where an effect stands; they hold to rounding only.
    pub group_lower: &'a [f64],
    /// p upper bounds of a group's own values.
    pub group_upper: &'a [f64],
}

/// What a fit answers besides the lists that it writes.
#[derive(Clone, Copy, Debug, PartialEq)]
pub struct Fit {
    /// The sum of the squared differences, without the effects' penalty.
    pub rss: f64,
    /// Whether a step was below 1e-10; otherwise no trial won any more, or the rounds were used up.
    pub converged: bool,
    /// The rounds begun, at most as many as are allowed.
    pub rounds: u64,
    /// The trials made, at most 240 times the rounds.
    pub trials: u64,
}

/// What a criterion answers besides the lists that it writes. Both numbers have a form of their own for
/// [`Curve::Ssasymp`] with one effect (include/kemroul.h): there the criterion is no deviance.
#[derive(Clone, Copy, Debug, PartialEq)]
pub struct Criterion {
    /// The profiled deviance; lower is better. It may be infinite or NaN.
    pub criterion: f64,
    /// The residual variance, at least 1e-12, never NaN.
    pub sigma2: f64,
}

/// What a search answers.
#[derive(Clone, Copy, Debug, PartialEq)]
pub struct Search {
    /// The middle of the last bracket.
    pub theta: f64,
    /// The criterion there.
    pub criterion: f64,
    /// The narrowings made: the smaller of 26 and what is allowed.
    pub narrowings: u64,
    /// Whether the last bracket is at most 1e-4 wide and the criterion finite.
    pub converged: bool,
    /// The fits made: three more than the narrowings.
    pub fits: u64,
}

/// Calls a function of the header with a problem, each list with its own length, and what follows.
macro_rules! call {
    ($function:ident, $problem:expr, $($rest:expr),* $(,)?) => {{
        let p: &Problem = $problem;
        let effects = p.effects.list();
        // Sound: each list goes with its length, and what is written is lent as `&mut`, so it is apart from the rest.
        unsafe {
            sys::$function(
                p.curve.code(),
                p.doses.as_ptr(), p.doses.len(),
                p.grams.as_ptr(), p.grams.len(),
                p.groups.as_ptr(), p.groups.len(),
                p.group_count,
                effects.as_ptr(), effects.len(),
                p.starts.as_ptr(), p.starts.len(),
                p.lower.as_ptr(), p.lower.len(),
                p.upper.as_ptr(), p.upper.len(),
                p.group_lower.as_ptr(), p.group_lower.len(),
                p.group_upper.as_ptr(), p.group_upper.len(),
                $($rest),*
            )
        }
    }};
}

impl Problem<'_> {
    /// The length of a list of effects, group after group: at most 64. 0 where there are over 32 groups, which a fit
    /// refuses.
    pub fn n_effects(&self) -> usize {
        match self.group_count {
            groups @ 0..=32 => groups as usize * self.effects.count(),
            _ => 0,
        }
    }

    /// The fit at one theta with at most `max_rounds` rounds, 0 to 1,000. Writes p curve values, and group after group
    /// the effects; refused, it leaves both lists as they were. Refuses every number but 1.
    pub fn fit(
        &self,
        theta: &Theta,
        max_rounds: u64,
        values: &mut [f64],
        effects_out: &mut [f64],
    ) -> Result<Fit, Refusal> {
        let mut rss = 0.0;
        let [mut converged, mut rounds, mut trials] = [0; 3];
        let theta = theta.list();
        let number = call!(
            kemroul_fit,
            self,
            theta.as_ptr(),
            theta.len(),
            max_rounds,
            values.as_mut_ptr(),
            values.len(),
            effects_out.as_mut_ptr(),
            effects_out.len(),
            &mut rss,
            &mut converged,
            &mut rounds,
            &mut trials,
        );
        let converged = converged != 0;
        Refusal::or(
            number,
            Fit {
                rss,
                converged,
                rounds,
                trials,
            },
        )
    }

    /// The criterion at one theta: fits as [`Problem::fit`] does, writes the same two lists and refuses the same.
    /// `n_agq` is the number of points of quadrature; 0 and 1 mean none ([`crate::gh_order`]).
    pub fn criterion(
        &self,
        theta: &Theta,
        max_rounds: u64,
        likelihood: Likelihood,
        n_agq: u64,
        values: &mut [f64],
        effects_out: &mut [f64],
    ) -> Result<Criterion, Refusal> {
        let [mut criterion, mut sigma2] = [0.0; 2];
        let theta = theta.list();
        let number = call!(
            kemroul_criterion,
            self,
            theta.as_ptr(),
            theta.len(),
            max_rounds,
            likelihood.flag(),
            n_agq,
            values.as_mut_ptr(),
            values.len(),
            effects_out.as_mut_ptr(),
            effects_out.len(),
            &mut criterion,
            &mut sigma2,
        );
        Refusal::or(number, Criterion { criterion, sigma2 })
    }

    /// The search over theta from 0.2 to 20, for one effect, with at most `max_narrowings` narrowings, 0 to 1,000.
    /// Refuses as [`Problem::fit`] does without 9, and with 10 also two effects or more narrowings.
    pub fn search(
        &self,
        max_rounds: u64,
        likelihood: Likelihood,
        n_agq: u64,
        max_narrowings: u64,
    ) -> Result<Search, Refusal> {
        let [mut theta, mut criterion] = [0.0; 2];
        let [mut narrowings, mut converged, mut fits] = [0; 3];
        let number = call!(
            kemroul_search,
            self,
            max_rounds,
            likelihood.flag(),
            n_agq,
            max_narrowings,
            &mut theta,
            &mut criterion,
            &mut narrowings,
            &mut converged,
            &mut fits,
        );
        let converged = converged != 0;
        Refusal::or(
            number,
            Search {
                theta,
                criterion,
                narrowings,
                converged,
                fits,
            },
        )
    }
}
