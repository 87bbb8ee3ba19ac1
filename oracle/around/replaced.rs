//! exp, ln and the tie rule of maximum and minimum, as document 01 says.

pub trait Replaced {
    fn fdlibm_exp(self) -> f64;
    fn fdlibm_ln(self) -> f64;
    fn first_max(self, other: f64) -> f64;
    fn first_min(self, other: f64) -> f64;
}

impl Replaced for f64 {
    fn fdlibm_exp(self) -> f64 {
        fdlibm::exp(self)
    }

    fn fdlibm_ln(self) -> f64 {
        fdlibm::ln(self)
    }

    /// Of two equal operands the first; of a NaN and a number the number.
    fn first_max(self, other: f64) -> f64 {
        if self.is_nan() || self < other {
            other
        } else {
            self
        }
    }

    /// Of two equal operands the first; of a NaN and a number the number.
    fn first_min(self, other: f64) -> f64 {
        if self.is_nan() || self > other {
            other
        } else {
            self
        }
    }
}
