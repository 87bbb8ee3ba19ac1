//! Document 01's refusals: the number of the first fault in its order, or 0.

use text::Problem;

/// p, the number of values of a curve; 0 where there is no such curve.
pub fn n_values(code: u64) -> usize {
    match code {
        1 | 2 => 3,
        3 => 2,
        4 => 4,
        _ => 0,
    }
}

fn no_curve(code: u64) -> bool {
    !(1..=4).contains(&code)
}

/// "It refuses 1, then 6 for a wrong number of values."
pub fn curve(code: u64, values: &[f64]) -> u64 {
    if no_curve(code) {
        1
    } else if values.len() != n_values(code) {
        6
    } else {
        0
    }
}

/// "It refuses 1, then 2 for over 512 or unequal lists, then 9."
pub fn start(code: u64, doses: &[f64], grams: &[f64], output: usize) -> u64 {
    if no_curve(code) {
        1
    } else if doses.len() > 512 || grams.len() > 512 || doses.len() != grams.len() {
        2
    } else if output != n_values(code) {
        9
    } else {
        0
    }
}

/// 1 to 8; the search is given no theta.
fn problem(p: &Problem, theta: Option<&[f64]>) -> u64 {
    let theta_given = theta.unwrap_or(&[]);
    let readings = p.doses.len();
    let bounds = [&p.lower, &p.upper, &p.group_lower, &p.group_upper];

    if no_curve(p.code) {
        return 1;
    }
    let values = n_values(p.code);
    if readings == 0 || readings > 512 || p.grams.len() != readings || p.groups.len() != readings {
        return 2;
    }
    if p.group_count == 0 || p.group_count > 32 {
        return 3;
    }
    if p.groups.iter().any(|&g| g >= p.group_count) {
        return 4;
    }
    let effects_right = match p.effects[..] {
        [a] => a < values as u64,
        [a, b] => a < values as u64 && b < values as u64 && a != b,
        _ => false,
    };
    if !effects_right {
        return 5;
    }
    let theta_length = if p.effects.len() == 1 { 1 } else { 3 };
    if p.starts.len() != values
        || bounds.iter().any(|list| list.len() != values)
        || theta.is_some_and(|list| list.len() != theta_length)
    {
        return 6;
    }
    let numbers = [&p.doses[..], &p.grams, &p.starts, theta_given];
    if numbers.iter().any(|list| list.iter().any(|x| !x.is_finite()))
        || bounds.iter().any(|list| list.iter().any(|x| x.is_nan()))
        || p.lower.iter().chain(&p.group_lower).any(|&x| x == f64::INFINITY)
        || p.upper.iter().chain(&p.group_upper).any(|&x| x == f64::NEG_INFINITY)
    {
        return 7;
    }
    let above = |lower: &[f64], upper: &[f64]| lower.iter().zip(upper).any(|(l, u)| l > u);
    if above(&p.lower, &p.upper) || above(&p.group_lower, &p.group_upper) {
        return 8;
    }
    0
}

/// The fit's, which the criterion shares.
pub fn fit(p: &Problem, theta: &[f64], max_rounds: u64, n_values_out: usize, n_effects_out: usize) -> u64 {
    let number = problem(p, Some(theta));
    if number != 0 {
        number
    } else if n_values_out != n_values(p.code) || n_effects_out != p.group_count as usize * p.effects.len() {
        9
    } else if max_rounds > 1000 {
        10
    } else {
        0
    }
}

/// "as the fit does without 9 and without theta in 6 and 7; then 10 also for two effects or more than 1,000
/// narrowings."
pub fn search(p: &Problem, max_rounds: u64, max_narrowings: u64) -> u64 {
    let number = problem(p, None);
    if number != 0 {
        number
    } else if max_rounds > 1000 || p.effects.len() == 2 || max_narrowings > 1000 {
        10
    } else {
        0
    }
}
