//! Random numbers from a seed (splitmix64), and the floats that cases are made of.

pub struct Random(u64);

impl Random {
    pub fn new(seed: u64) -> Self {
        Self(seed)
    }

    pub fn bits(&mut self) -> u64 {
        self.0 = self.0.wrapping_add(0x9e37_79b9_7f4a_7c15);
        let mut z = self.0;
        z = (z ^ (z >> 30)).wrapping_mul(0xbf58_476d_1ce4_e5b9);
        z = (z ^ (z >> 27)).wrapping_mul(0x94d0_49bb_1331_11eb);
        z ^ (z >> 31)
    }

    /// A whole number below `n`.
    pub fn below(&mut self, n: u64) -> u64 {
        self.bits() % n
    }

    pub fn upto(&mut self, from: u64, to: u64) -> u64 {
        from + self.below(to - from + 1)
    }

    pub fn one_in(&mut self, n: u64) -> bool {
        self.below(n) == 0
    }

    pub fn pick<T: Copy>(&mut self, of: &[T]) -> T {
        of[self.below(of.len() as u64) as usize]
    }

    /// Between 0 and 1.
    pub fn unit(&mut self) -> f64 {
        (self.bits() >> 11) as f64 / (1u64 << 53) as f64
    }

    pub fn between(&mut self, from: f64, to: f64) -> f64 {
        from + (to - from) * self.unit()
    }

    /// About normal, by twelve uniform numbers.
    pub fn noise(&mut self) -> f64 {
        let mut sum = -6.0;
        for _ in 0..12 {
            sum += self.unit();
        }
        sum
    }

    /// A whole number between -9 and 9, or a half.
    pub fn small(&mut self) -> f64 {
        let n = self.below(19) as f64 - 9.0;
        if self.one_in(5) {
            n / 2.0
        } else {
            n
        }
    }

    /// Any float.
    pub fn wild(&mut self) -> f64 {
        match self.below(8) {
            0 => self.pick(&SPECIAL),
            1 => f64::from_bits(self.bits()),
            2 => {
                let near = self.pick(&SPECIAL);
                moved(near, self.below(9) as i64 - 4)
            }
            3 => self.small(),
            4 => {
                let size = self.pick(&[1e-3, 1.0, 1e3, 1e6]);
                self.between(-size, size)
            }
            5 => self.power(1074),
            6 => self.power(340),
            _ => self.power(60),
        }
    }

    pub fn finite(&mut self) -> f64 {
        loop {
            let x = self.wild();
            if x.is_finite() {
                return x;
            }
        }
    }

    /// A float of either sign whose exponent of 2 is at most `largest` in size.
    pub fn power(&mut self, largest: i64) -> f64 {
        let exponent = self.below(2 * largest as u64 + 1) as i64 - largest;
        let x = scaled(1.0 + self.unit(), exponent);
        if self.one_in(2) {
            -x
        } else {
            x
        }
    }
}

/// x times 2^exponent, by steps that do not overflow on the way.
pub fn scaled(x: f64, exponent: i64) -> f64 {
    let half = exponent / 2;
    let two_to = |e: i64| f64::from_bits(((1023 + e) as u64) << 52);
    x * two_to(half) * two_to(exponent - half)
}

/// x moved by some units in the last place, through zero and into infinity but not beyond.
pub fn moved(x: f64, units: i64) -> f64 {
    if x.is_nan() {
        return x;
    }
    const INFINITY: i64 = 0x7ff0_0000_0000_0000;
    let size = (x.to_bits() & !(1 << 63)) as i64;
    let place = if x.is_sign_negative() { -size } else { size };
    let place = (place + units).clamp(-INFINITY, INFINITY);
    let sign = if place < 0 || (place == 0 && x.is_sign_negative()) {
        1 << 63
    } else {
        0
    };
    f64::from_bits(place.unsigned_abs() | sign)
}

pub const SPECIAL: [f64; 40] = [
    0.0,
    -0.0,
    5e-324,
    -5e-324,
    2.225_073_858_507_201e-308,
    -2.225_073_858_507_201e-308,
    f64::MIN_POSITIVE,
    -f64::MIN_POSITIVE,
    f64::MAX,
    -f64::MAX,
    f64::INFINITY,
    f64::NEG_INFINITY,
    f64::NAN,
    1.0,
    -1.0,
    0.5,
    -0.5,
    2.0,
    -2.0,
    f64::EPSILON,
    1e-6,
    1e-8,
    -1e-8,
    1e-10,
    1e-12,
    1e-16,
    1e-15,
    1e6,
    350.0,
    3.0,
    -3.0,
    10.0,
    -10.0,
    1e154,
    -1e154,
    1e200,
    -1e200,
    8.988_465_674_311_58e307,
    -8.988_465_674_311_58e307,
    709.782_712_893_384,
];
