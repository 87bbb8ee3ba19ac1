//! The numbered refusals.

use core::fmt;

/// Why a call was refused: the first fault that it has, in the order of the numbers. A refused call leaves everything
/// that it was lent as it was.
#[derive(Clone, Copy, Debug, PartialEq, Eq, Hash)]
pub enum Refusal {
    /// 1: the curve's code is not 1 to 4.
    Curve,
    /// 2: no readings where a fit needs them, over 512, or lists of readings that are unequal in length.
    Readings,
    /// 3: no groups, or over 32.
    Groups,
    /// 4: a group number that is not below the group count.
    GroupNumber,
    /// 5: effects not one or two, an index that the curve does not have, or two equal.
    Effects,
    /// 6: a wrong number of curve values, starts, bounds, group bounds or thetas.
    Lengths,
    /// 7: a reading, start or theta that is not finite, or a bound that none may be.
    Numbers,
    /// 8: a lower bound above its upper, group bounds included.
    Bounds,
    /// 9: a list for results of the wrong length.
    Results,
    /// 10: over 1,000 rounds; for a search also two effects, or over 1,000 narrowings.
    Limits,
    /// A number that this crate does not know. The archive that it was written for returns none.
    Unknown(u64),
}

impl Refusal {
    /// The refusals 1 to 10, in order.
    pub const ALL: [Refusal; 10] = [
        Refusal::Curve,
        Refusal::Readings,
        Refusal::Groups,
        Refusal::GroupNumber,
        Refusal::Effects,
        Refusal::Lengths,
        Refusal::Numbers,
        Refusal::Bounds,
        Refusal::Results,
        Refusal::Limits,
    ];

    /// The number that the library returns.
    pub fn number(self) -> u64 {
        match self {
            Refusal::Curve => 1,
            Refusal::Readings => 2,
            Refusal::Groups => 3,
            Refusal::GroupNumber => 4,
            Refusal::Effects => 5,
            Refusal::Lengths => 6,
            Refusal::Numbers => 7,
            Refusal::Bounds => 8,
            Refusal::Results => 9,
            Refusal::Limits => 10,
            Refusal::Unknown(number) => number,
        }
    }

    fn text(self) -> &'static str {
        match self {
            Refusal::Curve => "the curve's code is not 1 to 4",
            Refusal::Readings => "no readings, over 512, or lists of readings of unequal length",
            Refusal::Groups => "no groups, or over 32",
            Refusal::GroupNumber => "a group number that is not below the group count",
            Refusal::Effects => "effects not one or two, an index that the curve does not have, or two equal",
            Refusal::Lengths => "a wrong number of curve values, starts, bounds, group bounds or thetas",
            Refusal::Numbers => "a reading, start or theta that is not finite, or a bound that none may be",
            Refusal::Bounds => "a lower bound above its upper",
            Refusal::Results => "a list for results of the wrong length",
            Refusal::Limits => "over 1,000 rounds or narrowings, or a search with two effects",
            Refusal::Unknown(_) => "a number that is not known",
        }
    }

    /// `value` where the library returned 0.
    pub(crate) fn or<T>(number: u64, value: T) -> Result<T, Refusal> {
        match number {
            0 => Ok(value),
            1..=10 => Err(Self::ALL[number as usize - 1]),
            _ => Err(Refusal::Unknown(number)),
        }
    }
}

impl fmt::Display for Refusal {
    fn fmt(&self, f: &mut fmt::Formatter<'_>) -> fmt::Result {
        write!(f, "refused with {}: {}", self.number(), self.text())
    }
}

impl core::error::Error for Refusal {}
