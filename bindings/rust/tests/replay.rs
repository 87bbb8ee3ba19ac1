//! The repository's stored answers (StrictMath's, and the published Rust's), replayed through this crate: every float in
//! all bits, NaNs as one value, and what refused calls must keep. The format is oracle/FORMAT.md's, and
//! crates/replay/src/main.rt says which lines are wrong on purpose.

use kemroul::{Curve, Effects, Likelihood, Problem, Refusal, Theta};
use std::path::Path;

/// What lent places hold before a call, as the stored lines show it.
const KEPT: u64 = 0x4010_dead_0000_beef;
const KEPT_WHOLE: u64 = 987_654_321;

struct Words<'a>(std::str::Split<'a, char>);

impl<'a> Words<'a> {
    fn new(line: &'a str) -> Self {
        Words(line.split(' '))
    }
    fn word(&mut self) -> &'a str {
        self.0.next().expect("a word")
    }
    fn whole(&mut self) -> u64 {
        self.word().parse().expect("a whole number")
    }
    fn float(&mut self) -> f64 {
        match self.word() {
            "nan" => f64::NAN,
            word => f64::from_bits(u64::from_str_radix(word, 16).expect("a float's bits")),
        }
    }
    fn floats(&mut self) -> Vec<f64> {
        (0..self.whole()).map(|_| self.float()).collect()
    }
    fn wholes(&mut self) -> Vec<u64> {
        (0..self.whole()).map(|_| self.whole()).collect()
    }
}

fn bits(x: f64) -> u64 {
    if x.is_nan() {
        f64::NAN.to_bits()
    } else {
        x.to_bits()
    }
}

fn same(x: f64, y: f64) -> bool {
    bits(x) == bits(y)
}

fn all_same(x: &[f64], y: &[f64]) -> bool {
    x.len() == y.len() && x.iter().zip(y).all(|(&x, &y)| same(x, y))
}

/// Replays the lines of these operations. `judge` says whether an answer to the case is the stored one, and `None` where the
/// types cannot express the case. The last line of each operation is wrong on purpose. Counts the others, which must agree,
/// and those that cannot be expressed.
fn replay(operations: &[&str], judge: impl Fn(&mut Words, &mut Words) -> Option<bool>) -> (usize, usize) {
    let stored = Path::new(env!("CARGO_MANIFEST_DIR")).join("../../crates/replay/stdin");
    let text = std::fs::read_to_string(&stored).unwrap_or_else(|e| panic!("{}: {e}", stored.display()));
    let agrees = |line: &str| {
        let (case, answer) = line.split_once(" = ").expect("an answer line");
        judge(&mut Words::new(case), &mut Words::new(answer))
    };
    let mut counts = (0, 0);
    for operation in operations {
        let lines: Vec<&str> = text
            .lines()
            .filter(|line| Words::new(line).word() == *operation)
            .collect();
        let (wrong, right) = lines.split_last().expect("a wrong line");
        for line in right {
            match agrees(line) {
                Some(agrees) => {
                    assert!(agrees, "{line}");
                    counts.0 += 1;
                }
                None => counts.1 += 1,
            }
        }
        assert_eq!(agrees(wrong), Some(false), "{wrong}");
    }
    counts
}

#[test]
fn strictmath() {
    let counts = replay(&["exp", "ln", "sqrt"], |case, answer| {
        let function = match case.word() {
            "exp" => kemroul::exp,
            "ln" => kemroul::ln,
            "sqrt" => kemroul::sqrt,
            other => panic!("{other}"),
        };
        Some(same(function(case.float()), answer.float()))
    });
    assert!(counts.0 > 10_000 && counts.1 == 0);
}

#[test]
fn curves_and_orders() {
    let counts = replay(&["curve", "gh_order"], |case, answer| {
        if case.word() == "gh_order" {
            return Some(kemroul::gh_order(case.whole()).unwrap_or(0) == answer.whole());
        }
        let (code, values, dose) = (case.whole(), case.floats(), case.float());
        let number = answer.whole();
        let answered = Curve::from_code(code).and_then(|curve| curve.at(&values, dose));
        Some(match answered {
            Err(refusal) => refusal.number() == number,
            Ok(mean) => {
                number == 0
                    && same(mean.grams, answer.float())
                    && mean.gradient.iter().all(|&d| same(d, answer.float()))
            }
        })
    });
    assert!(counts.0 > 1_000 && counts.1 == 0);
}

#[test]
fn starts() {
    let counts = replay(&["start"], |case, answer| {
        case.word();
        let (code, doses, grams, n) = (case.whole(), case.floats(), case.floats(), case.whole() as usize);
        let (number, written) = (answer.whole(), answer.floats());
        let mut values = vec![f64::from_bits(KEPT); n];
        let answered = Curve::from_code(code).and_then(|curve| curve.start(&doses, &grams, &mut values));
        Some(answered.map_or_else(Refusal::number, |()| 0) == number && all_same(&values, &written))
    });
    assert!(counts.0 > 500 && counts.1 == 0);
}

/// What the cases of fit, criterion and search share, where the types can express it.
struct Case {
    code: u64,
    lists: [Vec<f64>; 7],
    groups: Vec<u64>,
    group_count: u64,
    effects: Effects,
}

/// The case after its operation's name.
fn case_of(case: &mut Words) -> Option<Case> {
    case.word();
    let (code, doses, grams, groups, group_count) =
        (case.whole(), case.floats(), case.floats(), case.wholes(), case.whole());
    let effects = match case.wholes()[..] {
        [a] => Some(Effects::One(a)),
        [a, b] => Some(Effects::Two([a, b])),
        _ => None,
    };
    let lists = [
        doses,
        grams,
        case.floats(),
        case.floats(),
        case.floats(),
        case.floats(),
        case.floats(),
    ];
    Some(Case {
        code,
        lists,
        groups,
        group_count,
        effects: effects?,
    })
}

fn theta_of(case: &mut Words) -> Option<Theta> {
    match case.floats()[..] {
        [a] => Some(Theta::One(a)),
        [a, b, c] => Some(Theta::Two([a, b, c])),
        _ => None,
    }
}

fn likelihood_of(reml: u64) -> Likelihood {
    match reml {
        0 => Likelihood::Ml,
        _ => Likelihood::Reml,
    }
}

impl Case {
    fn problem(&self) -> Result<Problem<'_>, Refusal> {
        let [doses, grams, starts, lower, upper, group_lower, group_upper] = &self.lists;
        Ok(Problem {
            curve: Curve::from_code(self.code)?,
            doses,
            grams,
            groups: &self.groups,
            group_count: self.group_count,
            effects: self.effects,
            starts,
            lower,
            upper,
            group_lower,
            group_upper,
        })
    }
}

fn lent(case: &mut Words) -> [Vec<f64>; 2] {
    [0; 2].map(|_| vec![f64::from_bits(KEPT); case.whole() as usize])
}

#[test]
fn fits() {
    let (replayed, left) = replay(&["fit"], |case, answer| {
        let (c, theta) = (case_of(case)?, theta_of(case)?);
        let max_rounds = case.whole();
        let [mut values, mut effects] = lent(case);
        let answered = c
            .problem()
            .and_then(|p| p.fit(&theta, max_rounds, &mut values, &mut effects));
        let mut agrees = answered.map_or_else(Refusal::number, |_| 0) == answer.whole();
        agrees &= all_same(&values, &answer.floats());
        agrees &= all_same(&effects, &answer.floats());
        let (rss, rest) = (answer.float(), [answer.whole(), answer.whole(), answer.whole()]);
        agrees &= match answered {
            Ok(f) => same(f.rss, rss) && [u64::from(f.converged), f.rounds, f.trials] == rest,
            Err(_) => rss.to_bits() == KEPT && rest == [KEPT_WHOLE; 3],
        };
        Some(agrees)
    });
    // The types have no place for other numbers of effects or thetas.
    assert!(replayed > 400 && left < 40, "{replayed} {left}");
}

#[test]
fn criteria() {
    let (replayed, left) = replay(&["criterion"], |case, answer| {
        let (c, theta) = (case_of(case)?, theta_of(case)?);
        let (max_rounds, reml, n_agq) = (case.whole(), case.whole(), case.whole());
        let likelihood = likelihood_of(reml);
        let [mut values, mut effects] = lent(case);
        let answered = c
            .problem()
            .and_then(|p| p.criterion(&theta, max_rounds, likelihood, n_agq, &mut values, &mut effects));
        let mut agrees = answered.map_or_else(Refusal::number, |_| 0) == answer.whole();
        agrees &= all_same(&values, &answer.floats());
        agrees &= all_same(&effects, &answer.floats());
        let rest = [answer.float(), answer.float()];
        agrees &= match answered {
            Ok(found) => all_same(&[found.criterion, found.sigma2], &rest),
            Err(_) => rest.iter().all(|x| x.to_bits() == KEPT),
        };
        Some(agrees)
    });
    assert!(replayed > 350 && left < 40, "{replayed} {left}");
}

#[test]
fn searches() {
    let (replayed, left) = replay(&["search"], |case, answer| {
        let c = case_of(case)?;
        let (max_rounds, reml, n_agq, max_narrowings) = (case.whole(), case.whole(), case.whole(), case.whole());
        let answered = c
            .problem()
            .and_then(|p| p.search(max_rounds, likelihood_of(reml), n_agq, max_narrowings));
        let mut agrees = answered.map_or_else(Refusal::number, |_| 0) == answer.whole();
        let floats = [answer.float(), answer.float()];
        let counts = [answer.whole(), answer.whole(), answer.whole()];
        agrees &= match answered {
            Ok(found) => {
                all_same(&[found.theta, found.criterion], &floats)
                    && [found.narrowings, u64::from(found.converged), found.fits] == counts
            }
            Err(_) => floats.iter().all(|x| x.to_bits() == KEPT) && counts == [KEPT_WHOLE; 3],
        };
        Some(agrees)
    });
    assert!(replayed > 350 && left < 40, "{replayed} {left}");
}
