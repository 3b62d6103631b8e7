// The rows concat-2, concat-10 and concat-100 of bench/library in a Java runtime: so many texts of 4 characters, joined at a call site of
// StringConcatFactory as javac writes it, so many times when it is warm. It prints the best of nine for each.
//   javac -d DIR bench/Joining.java; java -Xint -cp DIR Joining 20000; java -cp DIR Joining 100000
public class Joining {
    static String a = text(), b = text(), c = text(), d = text(), e = text(), f = text(), g = text(), h = text(), i = text(), j = text();

    interface Site {
        String join();
    }

    static String text() {
        return new String(new char[] {'x', 'x', 'x', 'x'});
    }

    static String two() {
        return a + b;
    }

    static String ten() {
        return a + b + c + d + e + f + g + h + i + j;
    }

    static String hundred() {
        return a + b + c + d + e + f + g + h + i + j
                + a + b + c + d + e + f + g + h + i + j
                + a + b + c + d + e + f + g + h + i + j
                + a + b + c + d + e + f + g + h + i + j
                + a + b + c + d + e + f + g + h + i + j
                + a + b + c + d + e + f + g + h + i + j
                + a + b + c + d + e + f + g + h + i + j
                + a + b + c + d + e + f + g + h + i + j
                + a + b + c + d + e + f + g + h + i + j
                + a + b + c + d + e + f + g + h + i + j;
    }

    static long run(Site site, int turns) {
        long sum = 0;
        for (int turn = 0; turn < turns; turn++) {
            sum += site.join().length();
        }
        return sum;
    }

    static void measure(String name, Site site, int turns) {
        long sum = 0;
        for (int warm = 0; warm < 5; warm++) {
            sum += run(site, turns);
        }
        double best = Double.MAX_VALUE;
        for (int turn = 0; turn < 9; turn++) {
            long begun = System.nanoTime();
            sum += run(site, turns);
            best = Math.min(best, (System.nanoTime() - begun) / (double) turns);
        }
        System.out.println(name + ": " + best + " ns, sum " + sum);
    }

    public static void main(String[] words) {
        int turns = Integer.parseInt(words[0]);
        measure("2", Joining::two, turns);
        measure("10", Joining::ten, turns);
        measure("100", Joining::hundred, turns);
    }
}
