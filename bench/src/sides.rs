//! The sides that are compared. Each makes its arguments ready first; what it returns then answers every case once,
//! and nothing else. Arguments and results pass through `black_box`, so that no call can be dropped or moved out.

use std::hint::black_box;
use text::{Answer, Case};

/// Answers every case once.
pub type Pass = Box<dyn FnMut()>;

/// The last two, of exp and ln: fdlibm's algorithms in C, and the loop without a call.
pub const SIDES: [&str; 5] = ["rust", "archive", "unreplaced", "c", "empty"];

/// None where the side does not have the operation.
pub fn pass(side: &str, operation: &str, cases: &[Case]) -> Option<Pass> {
    match side {
        "rust" => rust(operation, cases),
        "archive" => archive(operation, cases),
        "unreplaced" => unreplaced_rust(operation, cases),
        "c" => c(operation, cases),
        "empty" => Some(empty(operation, cases)),
        _ => None,
    }
}

fn each<T: 'static, R>(ready: Vec<T>, call: impl Fn(&T) -> R + 'static) -> Pass {
    Box::new(move || {
        for one in &ready {
            black_box(call(black_box(one)));
        }
    })
}

fn floats(cases: &[Case]) -> Vec<f64> {
    let float = |case: &Case| match case {
        Case::Exp(x) | Case::Ln(x) | Case::Sqrt(x) => *x,
        other => unreachable!("{other:?}"),
    };
    cases.iter().map(float).collect()
}

fn wholes(cases: &[Case]) -> Vec<u64> {
    let whole = |case: &Case| match case {
        Case::GhOrder(asked) => *asked,
        other => unreachable!("{other:?}"),
    };
    cases.iter().map(whole).collect()
}

/// The loop without a call.
fn empty(operation: &str, cases: &[Case]) -> Pass {
    match operation {
        "exp" | "ln" | "sqrt" => each(floats(cases), |x| *x),
        "gh_order" => each(wholes(cases), |asked| *asked),
        _ => each(cases.to_vec(), |_| ()),
    }
}

/// The published functions, as the crate `$variant` has them.
macro_rules! published {
    ($variant:ident, $operation:ident, $cases:ident) => {{
        use $variant::nlmm::fit::access::Ready;
        use $variant::nlmm::ready::{gh_order, Curve, Start};
        match $operation {
            "gh_order" => Some(each(wholes($cases), |asked| gh_order(*asked))),
            "curve" => {
                let ready = $cases.iter().map(|case| match case {
                    Case::Curve { code, values, dose } => Curve::new(*code, values, *dose),
                    other => unreachable!("{other:?}"),
                });
                Some(each(ready.collect(), |curve| curve.call()))
            }
            "start" => {
                let ready = $cases.iter().map(|case| match case {
                    Case::Start { code, doses, grams, .. } => Start::new(*code, doses, grams),
                    other => unreachable!("{other:?}"),
                });
                Some(each(ready.collect(), |start| start.call()))
            }
            "fit" => {
                let ready = $cases.iter().map(|case| match case {
                    Case::Fit {
                        problem,
                        theta,
                        max_rounds,
                        ..
                    } => (Ready::new(problem), theta.clone(), *max_rounds),
                    other => unreachable!("{other:?}"),
                });
                Some(each(ready.collect(), |(ready, theta, rounds)| {
                    ready.fit(theta, *rounds)
                }))
            }
            "criterion" => {
                let ready = $cases.iter().map(|case| match case {
                    Case::Criterion {
                        problem,
                        theta,
                        max_rounds,
                        reml,
                        n_agq,
                        ..
                    } => (Ready::new(problem), theta.clone(), (*max_rounds, *reml != 0, *n_agq)),
                    other => unreachable!("{other:?}"),
                });
                Some(each(ready.collect(), |(ready, theta, (rounds, reml, order))| {
                    ready.criterion(theta, *rounds, *reml, *order)
                }))
            }
            "search" => {
                let ready = $cases.iter().map(|case| match case {
                    Case::Search {
                        problem,
                        max_rounds,
                        reml,
                        n_agq,
                        max_narrowings,
                    } => (Ready::new(problem), (*max_rounds, *reml != 0, *n_agq, *max_narrowings)),
                    other => unreachable!("{other:?}"),
                });
                Some(each(ready.collect(), |(ready, (rounds, reml, order, narrowings))| {
                    ready.search(*rounds, *reml, *order, *narrowings)
                }))
            }
            _ => None,
        }
    }};
}

/// The published Rust with document 01's list replaced. Its sqrt is std's, an instruction.
fn rust(operation: &str, cases: &[Case]) -> Option<Pass> {
    Some(match operation {
        "exp" => each(floats(cases), |x| fdlibm::exp(*x)),
        "ln" => each(floats(cases), |x| fdlibm::ln(*x)),
        "sqrt" => each(floats(cases), |x| x.sqrt()),
        _ => return published!(replaced, operation, cases),
    })
}

/// The published Rust as it stands: std's exp and ln are the system's libm, solve and inverse are LAPACK's.
fn unreplaced_rust(operation: &str, cases: &[Case]) -> Option<Pass> {
    Some(match operation {
        "exp" => each(floats(cases), |x| x.exp()),
        "ln" => each(floats(cases), |x| x.ln()),
        "sqrt" => each(floats(cases), |x| x.sqrt()),
        #[cfg(feature = "unreplaced")]
        _ => return published!(unreplaced, operation, cases),
        #[cfg(not(feature = "unreplaced"))]
        _ => return None,
    })
}

extern "C" {
    fn fdlibm_exp(x: f64) -> f64;
    fn fdlibm_log(x: f64) -> f64;
}

/// c/fdlibm.c.
fn c(operation: &str, cases: &[Case]) -> Option<Pass> {
    Some(match operation {
        "exp" => each(floats(cases), |x| unsafe { fdlibm_exp(*x) }),
        "ln" => each(floats(cases), |x| unsafe { fdlibm_log(*x) }),
        _ => return None,
    })
}

/// libkemroul.a.
fn archive(operation: &str, cases: &[Case]) -> Option<Pass> {
    use driver::boundary;
    Some(match operation {
        "exp" => each(floats(cases), |x| unsafe { boundary::kemroul_exp(*x) }),
        "ln" => each(floats(cases), |x| unsafe { boundary::kemroul_ln(*x) }),
        "sqrt" => each(floats(cases), |x| unsafe { boundary::kemroul_sqrt(*x) }),
        "gh_order" => each(wholes(cases), |asked| unsafe { boundary::kemroul_gh_order(*asked) }),
        "curve" => {
            let ready = cases.iter().map(|case| match case {
                Case::Curve { code, values, dose } => (*code, values.clone(), *dose),
                other => unreachable!("{other:?}"),
            });
            each(ready.collect(), |(code, values, dose)| {
                let [mut mu, mut d0, mut d1, mut d2, mut d3] = [0.0; 5];
                let number = unsafe {
                    boundary::kemroul_curve(
                        *code,
                        values.as_ptr(),
                        values.len(),
                        *dose,
                        &mut mu,
                        &mut d0,
                        &mut d1,
                        &mut d2,
                        &mut d3,
                    )
                };
                (number, [mu, d0, d1, d2, d3])
            })
        }
        "start" => {
            let ready = cases.iter().map(|case| match case {
                Case::Start {
                    code,
                    doses,
                    grams,
                    n_values,
                } => (*code, doses.clone(), grams.clone(), *n_values),
                other => unreachable!("{other:?}"),
            });
            each(ready.collect(), |(code, doses, grams, n_values)| {
                let mut values = [0.0; 4];
                let lent = &mut values[..*n_values];
                let number = unsafe {
                    boundary::kemroul_start(
                        *code,
                        doses.as_ptr(),
                        doses.len(),
                        grams.as_ptr(),
                        grams.len(),
                        lent.as_mut_ptr(),
                        lent.len(),
                    )
                };
                (number, values)
            })
        }
        // The driver's call makes its lent lists anew: a few allocations beside a whole fit.
        "fit" | "criterion" | "search" => each(cases.to_vec(), driver::answer),
        _ => return None,
    })
}

fn answer_line(answer: Answer) -> String {
    let mut line = text::Line::default();
    line.answer(&answer);
    line.0
}

/// The first case that the Rust and the archive answer differently, of an operation that both have, or the Rust and
/// the C.
pub fn difference(operation: &str, cases: &[Case]) -> Option<String> {
    let has_archive = archive(operation, cases).is_some();
    cases.iter().find_map(|case| {
        let rust = answer_line(replaced::operations::answer(case));
        let mut others = Vec::new();
        if has_archive {
            others.push(("archive", answer_line(driver::answer(case))));
        }
        match case {
            Case::Exp(x) => others.push(("C", answer_line(Answer::Float(unsafe { fdlibm_exp(*x) })))),
            Case::Ln(x) => others.push(("C", answer_line(Answer::Float(unsafe { fdlibm_log(*x) })))),
            _ => {}
        }
        let (name, other) = others.iter().find(|(_, other)| *other != rust)?;
        Some(format!("{case:?}: the Rust {rust}, the {name} {other}"))
    })
}
