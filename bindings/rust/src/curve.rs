//! The four curves.

use crate::{sys, Refusal};

/// A curve, by the names that R has for it. `x` is the dose.
#[derive(Clone, Copy, Debug, PartialEq, Eq, Hash)]
pub enum Curve {
    /// Asym, xmid, scal: `Asym / (1 + exp((xmid - x) / scal))`.
    Sslogis,
    /// Asym, R0, lrc: `Asym - (Asym - R0) * exp(-exp(lrc) * x)`.
    Ssasymp,
    /// Vm, K: `Vm * (x / (K + x))`.
    Ssmicmen,
    /// A, B, xmid, scal: `A + (B - A) / (1 + exp((xmid - x) / scal))`.
    Ssfpl,
}

/// A curve at a dose.
#[derive(Clone, Copy, Debug, PartialEq)]
pub struct Mean {
    /// The grams.
    pub grams: f64,
    /// The gradient by each of the curve's values, +0 past the last.
    pub gradient: [f64; 4],
}

impl Curve {
    /// All of them, in the order of their codes.
    pub const ALL: [Curve; 4] = [Curve::Sslogis, Curve::Ssasymp, Curve::Ssmicmen, Curve::Ssfpl];

    /// The library's code, 1 to 4.
    pub fn code(self) -> u64 {
        match self {
            Curve::Sslogis => 1,
            Curve::Ssasymp => 2,
            Curve::Ssmicmen => 3,
            Curve::Ssfpl => 4,
        }
    }

    /// The curve of a code; [`Refusal::Curve`] where there is none.
    pub fn from_code(code: u64) -> Result<Curve, Refusal> {
        Self::ALL
            .into_iter()
            .find(|curve| curve.code() == code)
            .ok_or(Refusal::Curve)
    }

    /// p, the number of its values.
    pub fn n_values(self) -> usize {
        match self {
            Curve::Sslogis | Curve::Ssasymp => 3,
            Curve::Ssmicmen => 2,
            Curve::Ssfpl => 4,
        }
    }

    /// The grams and gradients at a dose. Any float is taken. Refuses [`Refusal::Lengths`].
    pub fn at(self, values: &[f64], dose: f64) -> Result<Mean, Refusal> {
        let mut grams = 0.0;
        let [mut d0, mut d1, mut d2, mut d3] = [0.0; 4];
        // Sound: the list goes with its length, and the five places are apart from it and from each other.
        let number = unsafe {
            sys::kemroul_curve(
                self.code(),
                values.as_ptr(),
                values.len(),
                dose,
                &mut grams,
                &mut d0,
                &mut d1,
                &mut d2,
                &mut d3,
            )
        };
        let gradient = [d0, d1, d2, d3];
        Refusal::or(number, Mean { grams, gradient })
    }

    /// Writes starting values for a fit, from 0 to 512 readings, into p places. Pairs that are not finite are skipped.
    /// The values may be infinite or NaN where the readings overflow. Refuses [`Refusal::Readings`], then
    /// [`Refusal::Results`].
    ///
    /// Before a fit, for readings that rise with the dose, turn the sign of the scal of [`Curve::Sslogis`], which is
    /// negative; and take the logarithm ([`crate::ln`]) of the lrc of [`Curve::Ssasymp`] where it is positive: it is the
    /// rate ln 2 / xmid, where the curve takes a rate's logarithm.
    pub fn start(self, doses: &[f64], grams: &[f64], values: &mut [f64]) -> Result<(), Refusal> {
        // Sound: each list goes with its length, and `values`, lent as `&mut`, is apart from the others.
        let number = unsafe {
            sys::kemroul_start(
                self.code(),
                doses.as_ptr(),
                doses.len(),
                grams.as_ptr(),
                grams.len(),
                values.as_mut_ptr(),
                values.len(),
            )
        };
        Refusal::or(number, ())
    }
}
