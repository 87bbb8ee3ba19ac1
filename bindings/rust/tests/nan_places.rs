//! A refused call keeps every bit of what it was lent, also where that is a NaN. The proofs have one NaN for all, so they
//! do not say it. What is lent are words here, which nothing in this file takes for floats.

mod common;

use common::faults::{self, Call, Start, CURVES, SOUND, TWO_EFFECTS};
use kemroul::sys;
use std::collections::BTreeSet;
use std::fmt::Debug;
use std::ptr::{null, null_mut};

/// A NaN for each i, no two with the same bits: every second one negative, of four the last two quiet.
fn nan(i: usize) -> u64 {
    let i = i as u64;
    // The factor is odd, so that no payload comes twice and none is 0.
    let payload = (i + 1) * 0x4_9f2d_6b35_a871 % (1 << 51);
    (i % 2) << 63 | 0x7ff << 52 | (i / 2 % 2) << 51 | payload
}

/// Memory for what a call writes, full of NaNs.
struct Lent {
    words: Vec<u64>,
    /// Which NaN the first word holds.
    first: usize,
    /// Where the words are that were handed out.
    places: Vec<usize>,
    next: usize,
}

impl Lent {
    fn new(first: usize) -> Self {
        Lent {
            words: (first..first + 100).map(nan).collect(),
            first,
            places: Vec::new(),
            next: 0,
        }
    }

    /// n words, floats to the call or not; the word after them is nobody's.
    fn list<T>(&mut self, n: usize) -> *mut T {
        let at = self.next;
        self.next += n + 1;
        assert!(self.next <= self.words.len());
        self.places.extend(at..at + n);
        match n {
            0 => null_mut(),
            _ => self.words.as_mut_ptr().wrapping_add(at).cast(),
        }
    }

    fn place<T>(&mut self) -> *mut T {
        self.list(1)
    }

    /// Where a bit is not what it was.
    fn changed(&self) -> Vec<usize> {
        let differs = |&i: &usize| self.words[i] != nan(self.first + i);
        (0..self.words.len()).filter(differs).collect()
    }
}

/// A list that is read. One of no elements may be NULL.
fn read<T>(list: &[T]) -> *const T {
    match list {
        [] => null(),
        _ => list.as_ptr(),
    }
}

/// Calls a function of the header with the arguments that a fit, a criterion and a search share, and what follows.
macro_rules! call {
    ($function:ident, $call:expr, $($rest:expr),* $(,)?) => {{
        let c: &Call = $call;
        // Sound: each list goes with its length, and what is written is apart from everything else.
        unsafe {
            sys::$function(
                c.code,
                read(c.doses), c.doses.len(),
                read(c.grams), c.grams.len(),
                read(c.groups), c.groups.len(),
                c.group_count,
                read(c.effects), c.effects.len(),
                read(c.starts), c.starts.len(),
                read(c.lower), c.lower.len(),
                read(c.upper), c.upper.len(),
                read(c.group_lower), c.group_lower.len(),
                read(c.group_upper), c.group_upper.len(),
                $($rest),*
            )
        }
    }};
}

fn fit(c: &Call, lent: &mut Lent) -> u64 {
    call!(
        kemroul_fit,
        c,
        read(c.theta),
        c.theta.len(),
        c.max_rounds,
        lent.list(c.n_values),
        c.n_values,
        lent.list(c.n_effects_out),
        c.n_effects_out,
        lent.place(),
        lent.place(),
        lent.place(),
        lent.place(),
    )
}

fn criterion(c: &Call, reml: u64, n_agq: u64, lent: &mut Lent) -> u64 {
    call!(
        kemroul_criterion,
        c,
        read(c.theta),
        c.theta.len(),
        c.max_rounds,
        reml,
        n_agq,
        lent.list(c.n_values),
        c.n_values,
        lent.list(c.n_effects_out),
        c.n_effects_out,
        lent.place(),
        lent.place(),
    )
}

fn ml(c: &Call, lent: &mut Lent) -> u64 {
    criterion(c, 0, 3, lent)
}

fn reml(c: &Call, lent: &mut Lent) -> u64 {
    criterion(c, 1, 0, lent)
}

fn search(c: &Call, lent: &mut Lent) -> u64 {
    call!(
        kemroul_search,
        c,
        c.max_rounds,
        0,
        0,
        c.max_narrowings,
        lent.place(),
        lent.place(),
        lent.place(),
        lent.place(),
        lent.place(),
    )
}

fn curve(&(code, n): &(u64, usize), lent: &mut Lent) -> u64 {
    let values = &[8.0, 1.0, 2.0, 4.0, 5.0][..n];
    // Sound: the list goes with its length, and the five places are apart from it and from each other.
    unsafe {
        sys::kemroul_curve(
            code,
            read(values),
            n,
            3.0,
            lent.place(),
            lent.place(),
            lent.place(),
            lent.place(),
            lent.place(),
        )
    }
}

fn start(s: &Start, lent: &mut Lent) -> u64 {
    // Sound: each list goes with its length, and the last is apart from the others.
    unsafe {
        sys::kemroul_start(
            s.code,
            read(s.doses),
            s.doses.len(),
            read(s.grams),
            s.grams.len(),
            lent.list(s.n_values),
            s.n_values,
        )
    }
}

type Function<C> = fn(&C, &mut Lent) -> u64;

/// What the call returns and leaves, with each kind of NaN in turn in each place.
fn answers<C>(function: Function<C>, call: &C) -> impl Iterator<Item = (u64, Lent)> + '_ {
    (0..4).map(move |first| {
        let mut lent = Lent::new(first);
        (function(call, &mut lent), lent)
    })
}

/// Each call is refused with its number and changes no bit. `numbers`: all that the header has for the function.
fn refused<C: Debug>(function: Function<C>, calls: Vec<(u64, C)>, numbers: impl IntoIterator<Item = u64>) {
    for (number, call) in &calls {
        for (answer, lent) in answers(function, call) {
            assert_eq!((answer, lent.changed()), (*number, vec![]), "{call:?}");
        }
    }
    let met: BTreeSet<u64> = calls.iter().map(|(number, _)| *number).collect();
    assert!(met.into_iter().eq(numbers));
}

/// The call is not refused, and changes every place and no word between them.
fn taken<C: Debug>(function: Function<C>, call: &C) {
    for (answer, lent) in answers(function, call) {
        assert_eq!((answer, lent.changed()), (0, lent.places), "{call:?}");
    }
}

#[test]
fn a_refused_curve() {
    refused(curve, faults::refused_curves(), [1, 6]);
}

#[test]
fn a_refused_start() {
    refused(start, faults::refused_starts(), [1, 2, 9]);
}

#[test]
fn a_refused_fit() {
    refused(fit, faults::refused_fits(), 1..=10);
}

#[test]
fn a_refused_criterion() {
    refused(ml, faults::refused_fits(), 1..=10);
    refused(reml, faults::refused_fits(), 1..=10);
}

#[test]
fn a_refused_search() {
    refused(search, faults::refused_searches(), [1, 2, 3, 4, 5, 6, 7, 8, 10]);
}

/// What is compared above is what these functions write.
#[test]
fn a_call_that_is_taken_changes_every_place() {
    for of in CURVES {
        taken(curve, &of);
        taken(start, &faults::start(of));
    }
    for function in [fit, ml, reml] {
        taken(function, &SOUND);
        taken(function, &TWO_EFFECTS);
    }
    taken(search, &SOUND);
}

/// Any bit of a NaN, also one that leaves it a NaN.
#[test]
fn one_bit_is_seen() {
    let mut lent = Lent::new(0);
    for i in [0, 1, 2, 3, 99] {
        for bit in 0..64 {
            lent.words[i] ^= 1 << bit;
            assert_eq!(lent.changed(), [i]);
            lent.words[i] ^= 1 << bit;
        }
    }
}

/// Of each kind in each place, and no two alike in a call.
#[test]
fn the_places_hold_different_nans() {
    for first in 0..4 {
        let words = Lent::new(first).words;
        assert!(words.iter().all(|&bits| bits << 1 > 0x7ff << 53));
        assert_eq!(words.iter().collect::<BTreeSet<_>>().len(), words.len());
    }
    let kinds = |i: usize| {
        (0..4)
            .map(move |first| Lent::new(first).words[i] >> 51)
            .collect::<BTreeSet<_>>()
    };
    assert!((0..100).all(|i| kinds(i).into_iter().eq([0xffe, 0xfff, 0x1ffe, 0x1fff])));
}
