// Answers of fdlibm for exp, ln and sqrt, as answer lines: `exp X = Y` with the bits in hexadecimal and every NaN as `nan`.
// StrictMath is specified to be fdlibm. No argument depends on the time or the machine. What it prints is where
// crates/replay/stdin begins (vectors/README.md).
import java.io.PrintStream;
import java.util.TreeSet;

public class Fdlibm {
    static final long SIGN = 0x8000000000000000L;
    static final long ONE = 0x3ff0000000000000L;

    // SplitMix64, written out so that every version of Java makes the same lists
    static final class Random {
        long state = 20260213L;

        long nextLong() {
            state += 0x9e3779b97f4a7c15L;
            long z = (state ^ (state >>> 30)) * 0xbf58476d1ce4e5b9L;
            z = (z ^ (z >>> 27)) * 0x94d049bb133111ebL;
            return z ^ (z >>> 31);
        }

        long below(long bound) {
            return Long.remainderUnsigned(nextLong(), bound);
        }

        double nextDouble() {
            return (nextLong() >>> 11) * 0x1.0p-53;
        }
    }

    // The arguments of one operation as bit patterns, each once.
    static final class Arguments extends TreeSet<Long> {
        void of(long bits) {
            add(Double.doubleToLongBits(Double.longBitsToDouble(bits)));
        }

        void of(double x) {
            of(Double.doubleToRawLongBits(x));
        }

        // the pattern and n neighbours on either side
        void around(long bits, int n) {
            for (long d = -n; d <= n; d++) {
                of(bits + d);
            }
        }

        // both sides of a bound on the high word without its sign: near its first and its last pattern, and both signs
        void aroundHigh(long high, int n) {
            for (long sign = 0; sign < 2; sign++) {
                long first = (high << 32) | (sign << 63);
                around(first, n);
                around(first + (1L << 32), n);
                of(first - (1L << 32));
                of(first + (1L << 31));
            }
        }

        // zeros, infinities, NaN, the ends of the subnormals and of the normals, and small whole numbers
        void special() {
            long[] ends = {0L, 1L, 2L, 3L, 0x000fffffffffffffL, 0x0010000000000000L, 0x0010000000000001L,
                0x001fffffffffffffL, 0x0020000000000000L, 0x7fe0000000000000L, 0x7fefffffffffffffL,
                0x7feffffffffffffeL, 0x7ff0000000000000L, 0x7ff0000000000001L, 0x7ff8000000000000L,
                ONE - 1, ONE, ONE + 1, 0x3fe0000000000000L, 0x4000000000000000L};
            for (long e : ends) {
                of(e);
                of(e | SIGN);
            }
            for (int k = 1; k <= 40; k++) {
                of((double) k);
                of(-(double) k);
                of(1.0 / k);
                of(-1.0 / k);
            }
        }

        // n patterns of any exponent and either sign
        void anyBits(Random r, int n) {
            for (int i = 0; i < n; i++) {
                of(r.nextLong());
            }
        }

        // n numbers between low and high, evenly
        void between(Random r, int n, double low, double high) {
            for (int i = 0; i < n; i++) {
                of(low + (high - low) * r.nextDouble());
            }
        }

        // n subnormals of every length
        void subnormals(Random r, int n) {
            for (int i = 0; i < n; i++) {
                of((r.nextLong() >>> 12) >>> (i % 52));
            }
        }
    }

    static Arguments exp(Random r) {
        Arguments a = new Arguments();
        a.special();
        for (long high : new long[] {0x3fd62e42L, 0x3ff0a2b2L, 0x3e300000L, 0x40862e42L, 0x7ff00000L}) {
            a.aroundHigh(high, 12);
        }
        // o_threshold and u_threshold, and the other sign of each
        a.around(0x40862e42fefa39efL, 60);
        a.around(0xc0862e42fefa39efL, 20);
        a.around(0xc0874910d52d3051L, 60);
        a.around(0x40874910d52d3051L, 20);
        // where k changes: x near (k + 1/2) ln 2, at the ends of the range (k = 1024; k = -1021, -1022; subnormal results), about 0 and along the way
        for (int k = -1076; k <= 1025; k += k >= -30 && k < 30 || k < -1060 || k >= -1025 && k < -1018 || k >= 1020 ? 1 : 7) {
            a.around(Double.doubleToLongBits((k + 0.5) * 0.6931471805599453), 1);
            a.of(k * 0.6931471805599453);
        }
        a.between(r, 120, -708.5, -707.0);
        a.between(r, 80, 709.0, 709.79);
        a.between(r, 80, -745.2, -744.0);
        a.between(r, 300, -746.0, 710.0);
        a.between(r, 300, -2.0, 2.0);
        a.anyBits(r, 1200);
        return a;
    }

    static Arguments ln(Random r) {
        Arguments a = new Arguments();
        a.special();
        // hx within a power of two: sqrt(2) where k steps (i + 0x95f64), the bounds 0x6147a and 0x6b851,
        // and |f| < 2^-20 on both sides of the power ((2 + hx) & 0xfffff < 3)
        long[] within = {0x6a09cL, 0x6a09dL, 0x6a09eL, 0x61479L, 0x6147aL, 0x6147bL, 0x6b850L, 0x6b851L, 0x6b852L, 0x00000L, 0x00001L, 0xffffeL, 0xfffffL};
        for (int e : new int[] {1, 2, 300, 1021, 1022, 1023, 1024, 1025, 1700, 2045, 2046}) {
            for (long hx : within) {
                long first = ((long) e << 52) | (hx << 32);
                a.around(first, 3);
                a.of(first | 0x80000000L);
                a.of(first | 0xffffffffL);
            }
        }
        // sqrt(2) and its half themselves, and 1
        a.around(0x3ff6a09e667f3bcdL, 12);
        a.around(0x3fe6a09e667f3bcdL, 12);
        a.around(ONE, 60);
        for (int d = 1; d <= 52; d++) {
            a.of(ONE + (1L << (d - 1)));
            a.of(ONE - (1L << (d - 1)));
        }
        // powers of two (f = 0 with k other than 0) and neighbours, the subnormal ones too
        for (int k = -1074; k <= 1023; k += k < -1015 || k >= -20 && k < 20 || k >= 1010 ? 1 : 9) {
            a.around(Double.doubleToLongBits(Math.scalb(1.0, k)), 1);
        }
        a.subnormals(r, 250);
        a.around(0x0010000000000000L, 12);
        a.between(r, 100, -10.0, 0.0);
        a.between(r, 300, 0.5, 2.0);
        a.between(r, 200, 0.0, 1000.0);
        a.anyBits(r, 1500);
        return a;
    }

    static Arguments sqrt(Random r) {
        Arguments a = new Arguments();
        a.special();
        // exact squares with their neighbours, at odd and even exponents
        for (int i = 0; i < 100; i++) {
            double root = (double) (i < 50 ? i + 1 : 1 + r.below(1L << 26));
            a.around(Double.doubleToLongBits(root * root), 1);
            a.of(2.0 * (root * root));
            a.of(Math.scalb(root * root, -2 * (int) r.below(500)));
        }
        // roots near a rounding boundary: the square of a number halfway between two floats, rounded both ways
        for (int i = 0; i < 120; i++) {
            long m = (1L << 52) + r.below(1L << 52);
            java.math.BigInteger half = java.math.BigInteger.valueOf(2 * m + 1);
            double square = new java.math.BigDecimal(half.multiply(half)).doubleValue();
            a.around(Double.doubleToLongBits(Math.scalb(square, -106 + 2 * (i % 40))), 1);
        }
        a.subnormals(r, 120);
        for (int e = 0; e < 2047; e += 11) {
            a.of((long) e << 52);
            a.of(((long) e << 52) | 0x000fffffffffffffL);
        }
        a.anyBits(r, 500);
        return a;
    }

    static String text(double x) {
        return x != x ? "nan" : String.format("%016x", Double.doubleToRawLongBits(x));
    }

    static void print(PrintStream out, String name, Arguments a) {
        for (long bits : a) {
            double x = Double.longBitsToDouble(bits);
            double y = name.equals("exp") ? StrictMath.exp(x) : name.equals("ln") ? StrictMath.log(x) : StrictMath.sqrt(x);
            out.print(name + " " + text(x) + " = " + text(y) + "\n");
        }
    }

    public static void main(String[] none) {
        PrintStream out = new PrintStream(new java.io.FileOutputStream(java.io.FileDescriptor.out), false);
        Random r = new Random();
        print(out, "exp", exp(r));
        print(out, "ln", ln(r));
        print(out, "sqrt", sqrt(r));
        out.flush();
    }
}
