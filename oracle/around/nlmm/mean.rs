//! Stand-in for mean.rs, whose source is not at hand: every start is supplied, so none of these values is used.

use crate::nlmm::formula::NlmmMeanKind;

pub fn default_start(_kind: NlmmMeanKind, names: &[String]) -> Vec<f64> {
    vec![f64::NAN; names.len()]
}
