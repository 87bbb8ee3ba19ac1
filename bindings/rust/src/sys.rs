//! include/kemroul.h as it stands. Its comments say what each argument is; a call is sound where every pointer with a
//! length has that many elements, the others have one, and nothing that is written overlaps another argument.

/// The arguments that a fit, a criterion and a search share, and then their own.
macro_rules! with_problem {
    ($(#[$doc:meta])* fn $function:ident ($($name:ident: $type:ty),* $(,)?)) => {
        extern "C" {
            $(#[$doc])*
            pub fn $function(
                code: u64,
                doses: *const f64,
                n_doses: usize,
                grams: *const f64,
                n_grams: usize,
                groups: *const u64,
                n_groups: usize,
                group_count: u64,
                effects: *const u64,
                n_effects: usize,
                starts: *const f64,
                n_starts: usize,
                lower: *const f64,
                n_lower: usize,
                upper: *const f64,
                n_upper: usize,
                group_lower: *const f64,
                n_group_lower: usize,
                group_upper: *const f64,
                n_group_upper: usize,
                $($name: $type),*
            ) -> u64;
        }
    };
}

extern "C" {
    /// e to the power x.
    pub fn kemroul_exp(x: f64) -> f64;
    /// The natural logarithm.
    pub fn kemroul_ln(x: f64) -> f64;
    /// The square root.
    pub fn kemroul_sqrt(x: f64) -> f64;
    /// The order of the Gauss-Hermite rule, 0 where none applies.
    pub fn kemroul_gh_order(asked: u64) -> u64;
    /// One curve at one dose.
    pub fn kemroul_curve(
        code: u64,
        values: *const f64,
        n_values: usize,
        dose: f64,
        mu: *mut f64,
        d0: *mut f64,
        d1: *mut f64,
        d2: *mut f64,
        d3: *mut f64,
    ) -> u64;
    /// Starting values.
    pub fn kemroul_start(
        code: u64,
        doses: *const f64,
        n_doses: usize,
        grams: *const f64,
        n_grams: usize,
        values: *mut f64,
        n_values: usize,
    ) -> u64;
}

with_problem! {
    /// The fit at one theta.
    fn kemroul_fit(
        theta: *const f64, n_theta: usize, max_rounds: u64,
        values: *mut f64, n_values: usize, effects_out: *mut f64, n_effects_out: usize,
        rss: *mut f64, converged: *mut u64, rounds: *mut u64, trials: *mut u64,
    )
}

with_problem! {
    /// The criterion at one theta.
    fn kemroul_criterion(
        theta: *const f64, n_theta: usize, max_rounds: u64, reml: u64, n_agq: u64,
        values: *mut f64, n_values: usize, effects_out: *mut f64, n_effects_out: usize,
        criterion: *mut f64, sigma2: *mut f64,
    )
}

with_problem! {
    /// The search over theta.
    fn kemroul_search(
        max_rounds: u64, reml: u64, n_agq: u64, max_narrowings: u64,
        theta: *mut f64, criterion: *mut f64, narrowings: *mut u64, converged: *mut u64, fits: *mut u64,
    )
}
