//! What the added hooks count: the trials of the last fit, its accepted states with the start first, and the
//! criteria worked out since `reset`.

use ndarray::Array1;
use std::cell::{Cell, RefCell};

pub struct State {
    pub params: Vec<f64>,
    pub b: Vec<f64>,
    pub sum: f64,
}

thread_local! {
    static FITS: Cell<u64> = const { Cell::new(0) };
    static TRIALS: Cell<u64> = const { Cell::new(0) };
    static KEEP_STATES: Cell<bool> = const { Cell::new(false) };
    static STATES: RefCell<Vec<State>> = const { RefCell::new(Vec::new()) };
}

pub fn reset() {
    FITS.set(0);
}

pub fn keep_states() {
    KEEP_STATES.set(true);
}

/// A criterion is being worked out.
pub fn fit() {
    FITS.set(FITS.get() + 1);
}

/// A fit begins.
pub fn begin() {
    TRIALS.set(0);
    STATES.with_borrow_mut(Vec::clear);
}

/// A state is being tried.
pub fn trial() {
    TRIALS.set(TRIALS.get() + 1);
}

/// The start, or a state that won.
pub fn state(params: &[f64], b: &Array1<f64>, sum: impl FnOnce() -> f64) {
    if KEEP_STATES.get() {
        let state = State {
            params: params.to_vec(),
            b: b.to_vec(),
            sum: sum(),
        };
        STATES.with_borrow_mut(|states| states.push(state));
    }
}

pub fn fits() -> u64 {
    FITS.get()
}

pub fn trials() -> u64 {
    TRIALS.get()
}

pub fn states() -> Vec<State> {
    STATES.with_borrow_mut(std::mem::take)
}
