import java.io.BufferedInputStream;
import java.io.BufferedReader;
import java.io.IOException;
import java.io.InputStreamReader;
import java.io.PrintStream;

/** Answers the cases of exp, ln and sqrt by Java's StrictMath, which is fdlibm 5.3 by its specification. */
final class StrictMathAnswers {
    public static void main(String[] words) throws IOException {
        BufferedReader in = new BufferedReader(new InputStreamReader(new BufferedInputStream(System.in, 1 << 16)));
        StringBuilder out = new StringBuilder();
        PrintStream print = new PrintStream(new java.io.FileOutputStream(java.io.FileDescriptor.out), false);
        String line;
        while ((line = in.readLine()) != null) {
            int space = line.indexOf(' ');
            String word = line.substring(space + 1);
            double x = word.equals("nan") ? Double.NaN : Double.longBitsToDouble(Long.parseUnsignedLong(word, 16));
            double y;
            switch (line.substring(0, space)) {
                case "exp": y = StrictMath.exp(x); break;
                case "ln": y = StrictMath.log(x); break;
                case "sqrt": y = StrictMath.sqrt(x); break;
                default: throw new IOException("no operation in: " + line);
            }
            String hex = Long.toHexString(Double.doubleToLongBits(y));
            out.append(line).append(" = ");
            if (Double.isNaN(y)) {
                out.append("nan");
            } else {
                out.append("0".repeat(16 - hex.length())).append(hex);
            }
            out.append('\n');
            if (out.length() > 1 << 15 || !in.ready()) {
                print.print(out);
                print.flush();
                out.setLength(0);
            }
        }
        print.print(out);
        print.flush();
    }
}
