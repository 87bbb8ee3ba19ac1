//! Every refusal of every function, the order of the numbers, and that a refused call keeps what it was lent.

mod common;

use common::{problem, ABOVE, BELOW, KEPT};
use kemroul::{sys, Curve, Effects, Likelihood, Problem, Refusal, Theta};
use std::ptr::null;

const DOSES: [f64; 3] = [1.0, 2.0, 3.0];
const GRAMS: [f64; 3] = [4.0, 5.3, 6.0];
const STARTS: [f64; 2] = [8.0, 1.0];

fn sound() -> Problem<'static> {
    problem(Curve::Ssmicmen, &DOSES, &GRAMS, Effects::One(0), &STARTS)
}

/// What is wrong with a call of fit, criterion and search, besides the problem.
#[derive(Clone, Copy)]
struct Call {
    problem: Problem<'static>,
    theta: Theta,
    max_rounds: u64,
    n_values: usize,
    n_effects: usize,
}

fn call(problem: Problem<'static>) -> Call {
    let theta = match problem.effects {
        Effects::One(_) => Theta::One(1.0),
        Effects::Two(_) => Theta::Two([1.0, 0.0, 1.0]),
    };
    Call {
        problem,
        theta,
        max_rounds: 10,
        n_values: 2,
        n_effects: problem.n_effects(),
    }
}

/// The call as a fit and as a criterion: refused with `refusal`, and the lists keep what they held.
fn refused(c: Call, refusal: Refusal) {
    let (mut values, mut effects) = (vec![KEPT; c.n_values], vec![KEPT; c.n_effects]);
    let fit = c.problem.fit(&c.theta, c.max_rounds, &mut values, &mut effects);
    assert_eq!(fit, Err(refusal));
    for likelihood in [Likelihood::Ml, Likelihood::Reml] {
        let p = c.problem;
        let criterion = p.criterion(&c.theta, c.max_rounds, likelihood, 3, &mut values, &mut effects);
        assert_eq!(criterion, Err(refusal));
    }
    assert!(values.iter().chain(&effects).all(|&x| x == KEPT));
}

/// The search's answer to the same problem.
fn searched(c: Call) -> Result<kemroul::Search, Refusal> {
    c.problem.search(c.max_rounds, Likelihood::Ml, 0, 3)
}

/// Refused by all three.
fn refused_by_all(c: Call, refusal: Refusal) {
    refused(c, refusal);
    assert_eq!(searched(c), Err(refusal));
}

/// All of the lent lists is written, and nothing beside them.
#[test]
fn a_call_without_faults() {
    let c = call(sound());
    let (mut values, mut effects) = ([KEPT; 4], [KEPT; 3]);
    let fit = c
        .problem
        .fit(&c.theta, 10, &mut values[1..3], &mut effects[1..2])
        .unwrap();
    assert_eq!(values.map(|x| x == KEPT), [true, false, false, true]);
    assert_eq!(effects.map(|x| x == KEPT), [true, false, true]);
    assert!(1 <= fit.rounds && fit.rounds <= 10 && fit.trials <= 240 * fit.rounds);

    let (mut values, mut effects) = ([KEPT; 4], [KEPT; 3]);
    let reml = Likelihood::Reml;
    assert!(c
        .problem
        .criterion(&c.theta, 10, reml, 3, &mut values[1..3], &mut effects[1..2])
        .is_ok());
    assert_eq!(values.map(|x| x == KEPT), [true, false, false, true]);
    assert_eq!(effects.map(|x| x == KEPT), [true, false, true]);
    assert!(searched(c).is_ok());

    let mut values = [KEPT; 4];
    assert!(Curve::Ssmicmen.start(&DOSES, &GRAMS, &mut values[1..3]).is_ok());
    assert_eq!(values.map(|x| x == KEPT), [true, false, false, true]);
}

#[test]
fn number_1() {
    for code in [0, 5, u64::MAX] {
        assert_eq!(Curve::from_code(code), Err(Refusal::Curve));
        // The type has no such curve, so the functions are asked as C asks them, all other arguments missing.
        let mut kept = [KEPT; 7];
        let [mu, d0, d1, d2, d3, a, b] = &mut kept;
        let mut counts = [77; 3];
        let [converged, rounds, trials] = &mut counts;
        macro_rules! nothing {
            ($function:ident, $($rest:expr),*) => {
                sys::$function(
                    code, null(), 0, null(), 0, null(), 0, 0, null(), 0, null(), 0, null(), 0, null(), 0, null(), 0, null(), 0,
                    $($rest),*
                )
            };
        }
        // Sound: every list has no elements, and every place that may be written is a place of its own.
        unsafe {
            assert_eq!(sys::kemroul_curve(code, null(), 0, 1.0, mu, d0, d1, d2, d3), 1);
            assert_eq!(sys::kemroul_start(code, null(), 0, null(), 0, a, 1), 1);
            assert_eq!(
                nothing!(kemroul_fit, null(), 0, 2000, a, 1, b, 1, mu, converged, rounds, trials),
                1
            );
            assert_eq!(
                nothing!(kemroul_criterion, null(), 0, 2000, 0, 0, a, 1, b, 1, mu, d0),
                1
            );
            assert_eq!(
                nothing!(kemroul_search, 2000, 0, 0, 2000, mu, d0, converged, rounds, trials),
                1
            );
        }
        assert_eq!((kept, counts), ([KEPT; 7], [77; 3]));
    }
    for code in 1..=4 {
        assert_eq!(Curve::from_code(code).unwrap().code(), code);
    }
}

#[test]
fn number_2() {
    let none = problem(Curve::Ssmicmen, &[], &[], Effects::One(0), &STARTS);
    let fewer_grams = Problem {
        grams: &GRAMS[..2],
        ..sound()
    };
    let fewer_groups = Problem {
        groups: &[0, 0],
        ..sound()
    };
    for p in [none, fewer_grams, fewer_groups] {
        refused_by_all(call(p), Refusal::Readings);
    }
    let mut values = [KEPT; 2];
    assert_eq!(
        Curve::Ssmicmen.start(&DOSES, &GRAMS[..2], &mut values),
        Err(Refusal::Readings)
    );
    assert_eq!(values, [KEPT; 2]);
}

#[test]
fn number_3() {
    for group_count in [0, 33, u64::MAX] {
        refused_by_all(call(Problem { group_count, ..sound() }), Refusal::Groups);
    }
}

#[test]
fn number_4() {
    refused_by_all(
        call(Problem {
            groups: &[0, 1, 0],
            ..sound()
        }),
        Refusal::GroupNumber,
    );
    refused_by_all(
        call(Problem {
            groups: &[0, 0, u64::MAX],
            ..sound()
        }),
        Refusal::GroupNumber,
    );
}

#[test]
fn number_5() {
    for effects in [
        Effects::One(2),
        Effects::One(u64::MAX),
        Effects::Two([0, 0]),
        Effects::Two([0, 2]),
    ] {
        refused_by_all(call(Problem { effects, ..sound() }), Refusal::Effects);
    }
}

#[test]
fn number_6() {
    refused_by_all(
        call(Problem {
            starts: &STARTS[..1],
            ..sound()
        }),
        Refusal::Lengths,
    );
    refused_by_all(
        call(Problem {
            lower: &BELOW,
            ..sound()
        }),
        Refusal::Lengths,
    );
    refused_by_all(
        call(Problem {
            upper: &ABOVE,
            ..sound()
        }),
        Refusal::Lengths,
    );
    refused_by_all(
        call(Problem {
            group_lower: &BELOW,
            ..sound()
        }),
        Refusal::Lengths,
    );
    refused_by_all(
        call(Problem {
            group_upper: &[],
            ..sound()
        }),
        Refusal::Lengths,
    );
    let theta = Theta::Two([1.0, 0.0, 1.0]);
    refused(Call { theta, ..call(sound()) }, Refusal::Lengths);
    assert_eq!(Curve::Ssmicmen.at(&[8.0, 1.0, 1.0], 3.0), Err(Refusal::Lengths));
    assert_eq!(Curve::Ssfpl.at(&[], 3.0), Err(Refusal::Lengths));
}

#[test]
fn number_7() {
    const INF: f64 = f64::INFINITY;
    refused_by_all(
        call(Problem {
            doses: &[1.0, f64::NAN, 2.0],
            ..sound()
        }),
        Refusal::Numbers,
    );
    refused_by_all(
        call(Problem {
            grams: &[1.0, -INF, 2.0],
            ..sound()
        }),
        Refusal::Numbers,
    );
    refused_by_all(
        call(Problem {
            starts: &[INF, 1.0],
            ..sound()
        }),
        Refusal::Numbers,
    );
    refused_by_all(
        call(Problem {
            lower: &[f64::NAN, -INF],
            ..sound()
        }),
        Refusal::Numbers,
    );
    refused_by_all(
        call(Problem {
            lower: &[-INF, INF],
            ..sound()
        }),
        Refusal::Numbers,
    );
    refused_by_all(
        call(Problem {
            upper: &[-INF, INF],
            ..sound()
        }),
        Refusal::Numbers,
    );
    refused_by_all(
        call(Problem {
            group_lower: &[-INF, INF],
            ..sound()
        }),
        Refusal::Numbers,
    );
    refused_by_all(
        call(Problem {
            group_upper: &[INF, f64::NAN],
            ..sound()
        }),
        Refusal::Numbers,
    );
    refused(
        Call {
            theta: Theta::One(INF),
            ..call(sound())
        },
        Refusal::Numbers,
    );
}

#[test]
fn number_8() {
    refused_by_all(
        call(Problem {
            lower: &[9.0, 0.0],
            upper: &[8.0, 1.0],
            ..sound()
        }),
        Refusal::Bounds,
    );
    // Also where no effect stands.
    refused_by_all(
        call(Problem {
            group_lower: &[0.0, 1.0],
            group_upper: &[9.0, 0.5],
            ..sound()
        }),
        Refusal::Bounds,
    );
}

#[test]
fn number_9() {
    for (n_values, n_effects) in [(1, 1), (3, 1), (2, 0), (2, 2)] {
        refused(
            Call {
                n_values,
                n_effects,
                ..call(sound())
            },
            Refusal::Results,
        );
    }
    for n in [0, 1, 3] {
        let mut values = vec![KEPT; n];
        assert_eq!(
            Curve::Ssmicmen.start(&DOSES, &GRAMS, &mut values),
            Err(Refusal::Results)
        );
        assert_eq!(values, vec![KEPT; n]);
    }
}

#[test]
fn number_10() {
    refused_by_all(
        Call {
            max_rounds: 1001,
            ..call(sound())
        },
        Refusal::Limits,
    );
    refused_by_all(
        Call {
            max_rounds: u64::MAX,
            ..call(sound())
        },
        Refusal::Limits,
    );
    let p = sound();
    assert_eq!(p.search(5, Likelihood::Ml, 0, 1001), Err(Refusal::Limits));
    assert!(p.search(5, Likelihood::Ml, 0, 1000).is_ok());
    let two = Problem {
        effects: Effects::Two([0, 1]),
        ..p
    };
    assert_eq!(two.search(5, Likelihood::Ml, 0, 3), Err(Refusal::Limits));
    let (mut values, mut effects) = ([0.0; 2], [0.0; 2]);
    assert!(two
        .fit(&Theta::Two([1.0, 0.0, 1.0]), 1000, &mut values, &mut effects)
        .is_ok());
}

/// A call that has every fault, mended one after the other, is refused with each number in turn.
#[test]
fn the_first_fault_counts() {
    let mut c = Call {
        problem: Problem {
            curve: Curve::Ssmicmen,
            doses: &[f64::INFINITY, 5.3, 6.0],
            grams: &GRAMS[..2],
            groups: &[0, 1, 0],
            group_count: 0,
            effects: Effects::One(2),
            starts: &STARTS[..1],
            lower: &[9.0, 0.0],
            upper: &[8.0, 1.0],
            group_lower: &BELOW[..2],
            group_upper: &ABOVE[..2],
        },
        theta: Theta::One(1.0),
        max_rounds: 1001,
        n_values: 0,
        n_effects: 0,
    };
    refused(c, Refusal::Readings);
    c.problem.grams = &GRAMS;
    refused(c, Refusal::Groups);
    c.problem.group_count = 1;
    refused(c, Refusal::GroupNumber);
    c.problem.groups = &[0, 0, 0];
    refused(c, Refusal::Effects);
    c.problem.effects = Effects::One(1);
    refused(c, Refusal::Lengths);
    c.problem.starts = &STARTS;
    refused(c, Refusal::Numbers);
    c.problem.doses = &DOSES;
    refused(c, Refusal::Bounds);
    c.problem.lower = &BELOW[..2];
    refused(c, Refusal::Results);
    (c.n_values, c.n_effects) = (2, 1);
    refused(c, Refusal::Limits);
    c.max_rounds = 1000;
    assert!(searched(c).is_ok());
}

#[test]
fn texts_and_numbers() {
    for (i, refusal) in Refusal::ALL.into_iter().enumerate() {
        assert_eq!(refusal.number(), i as u64 + 1);
        let text = refusal.to_string();
        assert!(
            text.starts_with(&format!("refused with {}: ", i + 1)) && text.len() > 30,
            "{text}"
        );
    }
    let error: Box<dyn std::error::Error> = Box::new(Refusal::Limits);
    assert!(error.to_string().contains("over 1,000 rounds"));
}

#[test]
fn an_empty_list_may_be_null() {
    let mut values = [KEPT; 2];
    // Sound: two lists of no elements, and one of two.
    let number = unsafe { sys::kemroul_start(3, null(), 0, null(), 0, values.as_mut_ptr(), 2) };
    assert_eq!((number, values), (0, [10.0, 1.0]));
}
