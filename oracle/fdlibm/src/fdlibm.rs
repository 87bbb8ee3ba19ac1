//! exp and ln of fdlibm 5.3 (e_exp.c and e_log.c), each operation rounded once in the file's order.
//!
//! exp writes x = k ln2 + r with |r| at most 0.5 ln2, works out exp(r) by a rational approximation with
//! the polynomial P1 to P5 and multiplies by 2^k through the exponent bits. ln writes x = 2^k (1 + f) with
//! 1 + f between sqrt(2)/2 and sqrt(2), and works out ln(1 + f) from s = f / (2 + f) with Lg1 to Lg7.
//! The text is a port of the C, with `hx`, `k`, `hi`, `lo` and the rest named as there.

const fn f(bits: u64) -> f64 {
    f64::from_bits(bits)
}

const HALF: [f64; 2] = [0.5, -0.5];
const HUGE: f64 = 1.0e300;
const TWOM1000: f64 = f(0x0170_0000_0000_0000); // 2^-1000
const O_THRESHOLD: f64 = f(0x4086_2E42_FEFA_39EF); // 7.09782712893383973096e+02
const U_THRESHOLD: f64 = f(0xC087_4910_D52D_3051); // -7.45133219101941108420e+02
const LN2_HI: f64 = f(0x3FE6_2E42_FEE0_0000); // 6.93147180369123816490e-01
const LN2_LO: f64 = f(0x3DEA_39EF_3579_3C76); // 1.90821492927058770002e-10
const LN2HI: [f64; 2] = [LN2_HI, -LN2_HI];
const LN2LO: [f64; 2] = [LN2_LO, -LN2_LO];
const INVLN2: f64 = f(0x3FF7_1547_652B_82FE); // 1.44269504088896338700e+00
const P1: f64 = f(0x3FC5_5555_5555_553E); // 1.66666666666666019037e-01
const P2: f64 = f(0xBF66_C16C_16BE_BD93); // -2.77777777770155933842e-03
const P3: f64 = f(0x3F11_566A_AF25_DE2C); // 6.61375632143793436117e-05
const P4: f64 = f(0xBEBB_BD41_C5D2_6BF1); // -1.65339022054652515390e-06
const P5: f64 = f(0x3E66_3769_72BE_A4D0); // 4.13813679705723846039e-08

const TWO54: f64 = f(0x4350_0000_0000_0000); // 2^54
const LG1: f64 = f(0x3FE5_5555_5555_5593); // 6.666666666666735130e-01
const LG2: f64 = f(0x3FD9_9999_9997_FA04); // 3.999999999940941908e-01
const LG3: f64 = f(0x3FD2_4924_9422_9359); // 2.857142874366239149e-01
const LG4: f64 = f(0x3FCC_71C5_1D8E_78AF); // 2.222219843214978396e-01
const LG5: f64 = f(0x3FC7_4664_96CB_03DE); // 1.818357216161805012e-01
const LG6: f64 = f(0x3FC3_9A09_D078_C69F); // 1.531383769920937332e-01
const LG7: f64 = f(0x3FC2_F112_DF3E_5244); // 1.479819860511658591e-01

fn high(x: f64) -> u32 {
    (x.to_bits() >> 32) as u32
}

fn low(x: f64) -> u32 {
    x.to_bits() as u32
}

fn with_high(x: f64, high: u32) -> f64 {
    f64::from_bits((u64::from(high) << 32) | u64::from(low(x)))
}

/// `__ieee754_exp`.
pub fn exp(mut x: f64) -> f64 {
    let mut hi = 0.0;
    let mut lo = 0.0;
    let mut k: i32 = 0;
    let xsb = (high(x) >> 31) as usize; // sign bit of x
    let hx = high(x) & 0x7fff_ffff;

    if hx >= 0x4086_2E42 {
        if hx >= 0x7ff0_0000 {
            if (hx & 0xfffff) | low(x) != 0 {
                return x + x; // NaN
            }
            return if xsb == 0 { x } else { 0.0 };
        }
        if x > O_THRESHOLD {
            return HUGE * HUGE;
        }
        if x < U_THRESHOLD {
            return TWOM1000 * TWOM1000;
        }
    }

    if hx > 0x3fd6_2e42 {
        // |x| > 0.5 ln2
        if hx < 0x3FF0_A2B2 {
            // |x| < 1.5 ln2
            hi = x - LN2HI[xsb];
            lo = LN2LO[xsb];
            k = 1 - xsb as i32 - xsb as i32;
        } else {
            k = (INVLN2 * x + HALF[xsb]) as i32;
            let t = f64::from(k);
            hi = x - t * LN2HI[0];
            lo = t * LN2LO[0];
        }
        x = hi - lo;
    } else if hx < 0x3e30_0000 && HUGE + x > 1.0 {
        // |x| < 2^-28
        return 1.0 + x;
    }

    let t = x * x;
    let c = x - t * (P1 + t * (P2 + t * (P3 + t * (P4 + t * P5))));
    if k == 0 {
        return 1.0 - ((x * c) / (c - 2.0) - x);
    }
    let y = 1.0 - ((lo - (x * c) / (2.0 - c)) - hi);
    if k >= -1021 {
        with_high(y, high(y).wrapping_add((k << 20) as u32))
    } else {
        with_high(y, high(y).wrapping_add(((k + 1000) << 20) as u32)) * TWOM1000
    }
}

/// `__ieee754_log`.
pub fn ln(mut x: f64) -> f64 {
    let mut hx = high(x) as i32;
    let mut k: i32 = 0;
    if hx < 0x0010_0000 {
        // x < 2^-1022
        if (hx & 0x7fff_ffff) as u32 | low(x) == 0 {
            return -TWO54 / 0.0; // ln(±0) = -inf
        }
        if hx < 0 {
            return (x - x) / 0.0; // ln(negative) = NaN
        }
        k -= 54;
        x *= TWO54;
        hx = high(x) as i32;
    }
    if hx >= 0x7ff0_0000 {
        return x + x;
    }
    k += (hx >> 20) - 1023;
    hx &= 0x000f_ffff;
    let i = (hx + 0x95f64) & 0x10_0000;
    x = with_high(x, (hx | (i ^ 0x3ff0_0000)) as u32); // normalise x or x/2
    k += i >> 20;
    let f = x - 1.0;
    let dk = f64::from(k);
    if (0x000f_ffff & (2 + hx)) < 3 {
        // |f| < 2^-20
        if f == 0.0 {
            return if k == 0 { 0.0 } else { dk * LN2_HI + dk * LN2_LO };
        }
        let r = f * f * (0.5 - 0.333_333_333_333_333_33 * f);
        return if k == 0 {
            f - r
        } else {
            dk * LN2_HI - ((r - dk * LN2_LO) - f)
        };
    }
    let s = f / (2.0 + f);
    let z = s * s;
    let i = hx - 0x6147a;
    let w = z * z;
    let j = 0x6b851 - hx;
    let t1 = w * (LG2 + w * (LG4 + w * LG6));
    let t2 = z * (LG1 + w * (LG3 + w * (LG5 + w * LG7)));
    let r = t2 + t1;
    if i | j > 0 {
        let hfsq = 0.5 * f * f;
        if k == 0 {
            f - (hfsq - s * (hfsq + r))
        } else {
            dk * LN2_HI - ((hfsq - (s * (hfsq + r) + dk * LN2_LO)) - f)
        }
    } else if k == 0 {
        f - s * (f - r)
    } else {
        dk * LN2_HI - ((s * (f - r) - dk * LN2_LO) - f)
    }
}

#[cfg(test)]
mod tests {
    use super::{exp, ln};

    #[test]
    fn fdlibm_5_3_and_no_other() {
        // Libraries that treat 1 apart give 2.718281828459045.
        assert_eq!(exp(1.0).to_bits(), 0x4005_bf0a_8b14_576a);
    }

    #[test]
    fn ends() {
        assert_eq!(exp(f64::INFINITY), f64::INFINITY);
        assert_eq!(exp(f64::NEG_INFINITY).to_bits(), 0);
        assert_eq!(exp(-0.0), 1.0);
        assert!(exp(f64::NAN).is_nan());
        assert_eq!(ln(1.0).to_bits(), 0);
        assert_eq!(ln(0.0), f64::NEG_INFINITY);
        assert_eq!(ln(-0.0), f64::NEG_INFINITY);
        assert_eq!(ln(f64::INFINITY), f64::INFINITY);
        assert!(ln(-1.0).is_nan() && ln(f64::NEG_INFINITY).is_nan() && ln(f64::NAN).is_nan());
    }
}
