//! The published functions with their arguments made ready, for measuring: a call is the function's own, with
//! nothing refused, copied or turned into lists before it. Those of fit.rs are in its child `access`.

use crate::nlmm::fit::NlmmStart;
use crate::nlmm::formula::NlmmMeanKind;
use crate::nlmm::mean_fn::NlmmMeanEval;
use crate::nlmm::self_start::self_start;
use crate::operations::{kind, names};
use crate::quadrature::resolve_gh_order;
use ndarray::Array1;

pub fn gh_order(asked: u64) -> Option<usize> {
    resolve_gh_order(asked as usize)
}

pub struct Curve {
    kind: NlmmMeanKind,
    values: Vec<f64>,
    dose: f64,
}

impl Curve {
    pub fn new(code: u64, values: &[f64], dose: f64) -> Self {
        Self {
            kind: kind(code),
            values: values.to_vec(),
            dose,
        }
    }

    pub fn call(&self) -> (f64, Vec<f64>) {
        self.kind.eval(self.dose, &self.values)
    }
}

pub struct Start {
    kind: NlmmMeanKind,
    x: Array1<f64>,
    y: Array1<f64>,
    names: Vec<String>,
}

impl Start {
    pub fn new(code: u64, doses: &[f64], grams: &[f64]) -> Self {
        Self {
            kind: kind(code),
            x: Array1::from_vec(doses.to_vec()),
            y: Array1::from_vec(grams.to_vec()),
            names: names(code),
        }
    }

    pub fn call(&self) -> NlmmStart {
        self_start(self.kind, &self.x, &self.y, &self.names)
    }
}
