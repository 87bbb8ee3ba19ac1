/* exp and ln by the algorithms of fdlibm 5.3's e_exp.c and e_log.c, in C, for measuring alone. The two files themselves
 * are not at hand: this is oracle/fdlibm written in C, with fdlibm's names and its order of operations, and `bench`
 * compares the bits of both on every case before it measures.
 *
 * Copyright (C) 1993, 2004 by Sun Microsystems, Inc. All rights reserved.
 *
 * Permission to use, copy, modify, and distribute this
 * software is freely granted, provided that this notice
 * is preserved.
 */
#include <stdint.h>
#include <string.h>

static const double one = 1.0, halF[2] = {0.5, -0.5}, huge = 1.0e+300, twom1000 = 0x1p-1000,
                    o_threshold = 7.09782712893383973096e+02, u_threshold = -7.45133219101941108420e+02,
                    ln2HI[2] = {6.93147180369123816490e-01, -6.93147180369123816490e-01},
                    ln2LO[2] = {1.90821492927058770002e-10, -1.90821492927058770002e-10},
                    invln2 = 1.44269504088896338700e+00, P1 = 1.66666666666666019037e-01,
                    P2 = -2.77777777770155933842e-03, P3 = 6.61375632143793436117e-05,
                    P4 = -1.65339022054652515390e-06, P5 = 4.13813679705723846039e-08;

static const double two54 = 0x1p54, Lg1 = 6.666666666666735130e-01, Lg2 = 3.999999999940941908e-01,
                    Lg3 = 2.857142874366239149e-01, Lg4 = 2.222219843214978396e-01, Lg5 = 1.818357216161805012e-01,
                    Lg6 = 1.531383769920937332e-01, Lg7 = 1.479819860511658591e-01, zero = 0.0;

static uint64_t bits(double x) {
    uint64_t b;
    memcpy(&b, &x, sizeof b);
    return b;
}

static uint32_t high(double x) { return (uint32_t)(bits(x) >> 32); }

static uint32_t low(double x) { return (uint32_t)bits(x); }

static double with_high(double x, uint32_t h) {
    uint64_t b = (uint64_t)h << 32 | low(x);
    memcpy(&x, &b, sizeof x);
    return x;
}

double fdlibm_exp(double x) {
    double y, hi = 0.0, lo = 0.0, c, t;
    int32_t k = 0;
    uint32_t hx = high(x);
    int32_t xsb = (int32_t)(hx >> 31);
    hx &= 0x7fffffff;
    if (hx >= 0x40862E42) {
        if (hx >= 0x7ff00000) {
            if (((hx & 0xfffff) | low(x)) != 0) return x + x;
            return xsb == 0 ? x : 0.0;
        }
        if (x > o_threshold) return huge * huge;
        if (x < u_threshold) return twom1000 * twom1000;
    }
    if (hx > 0x3fd62e42) {
        if (hx < 0x3FF0A2B2) {
            hi = x - ln2HI[xsb];
            lo = ln2LO[xsb];
            k = 1 - xsb - xsb;
        } else {
            k = (int32_t)(invln2 * x + halF[xsb]);
            t = k;
            hi = x - t * ln2HI[0];
            lo = t * ln2LO[0];
        }
        x = hi - lo;
    } else if (hx < 0x3e300000) {
        if (huge + x > one) return one + x;
    }
    t = x * x;
    c = x - t * (P1 + t * (P2 + t * (P3 + t * (P4 + t * P5))));
    if (k == 0) return one - ((x * c) / (c - 2.0) - x);
    y = one - ((lo - (x * c) / (2.0 - c)) - hi);
    if (k >= -1021) return with_high(y, high(y) + ((uint32_t)k << 20));
    return with_high(y, high(y) + ((uint32_t)(k + 1000) << 20)) * twom1000;
}

double fdlibm_log(double x) {
    double hfsq, f, s, z, R, w, t1, t2, dk;
    int32_t k = 0, i, j;
    int32_t hx = (int32_t)high(x);
    if (hx < 0x00100000) {
        if ((((uint32_t)hx & 0x7fffffff) | low(x)) == 0) return -two54 / zero;
        if (hx < 0) return (x - x) / zero;
        k -= 54;
        x *= two54;
        hx = (int32_t)high(x);
    }
    if (hx >= 0x7ff00000) return x + x;
    k += (hx >> 20) - 1023;
    hx &= 0x000fffff;
    i = (hx + 0x95f64) & 0x100000;
    x = with_high(x, (uint32_t)(hx | (i ^ 0x3ff00000)));
    k += i >> 20;
    f = x - 1.0;
    dk = (double)k;
    if ((0x000fffff & (2 + hx)) < 3) {
        if (f == zero) {
            if (k == 0) return zero;
            return dk * ln2HI[0] + dk * ln2LO[0];
        }
        R = f * f * (0.5 - 0.33333333333333333 * f);
        if (k == 0) return f - R;
        return dk * ln2HI[0] - ((R - dk * ln2LO[0]) - f);
    }
    s = f / (2.0 + f);
    z = s * s;
    i = hx - 0x6147a;
    w = z * z;
    j = 0x6b851 - hx;
    t1 = w * (Lg2 + w * (Lg4 + w * Lg6));
    t2 = z * (Lg1 + w * (Lg3 + w * (Lg5 + w * Lg7)));
    i |= j;
    R = t2 + t1;
    if (i > 0) {
        hfsq = 0.5 * f * f;
        if (k == 0) return f - (hfsq - s * (hfsq + R));
        return dk * ln2HI[0] - ((hfsq - (s * (hfsq + R) + dk * ln2LO[0])) - f);
    }
    if (k == 0) return f - s * (f - R);
    return dk * ln2HI[0] - ((s * (f - R) - dk * ln2LO[0]) - f);
}
