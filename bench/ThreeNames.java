import java.lang.invoke.MethodHandle;
import java.lang.invoke.MethodHandles;
import java.lang.invoke.MethodType;

// The handle of the row run-three-names of bench/library in a Java runtime, called so many times when it is warm: the best of nine.
//   javac -d DIR bench/ThreeNames.java; java -Xint -cp DIR ThreeNames 20000; java -cp DIR ThreeNames 200000
public class ThreeNames {
    static int add(int a, int b) {
        return a + b;
    }

    static int same(int a) {
        return a;
    }

    static long run(MethodHandle handle, int turns) throws Throwable {
        long sum = 0;
        for (int i = 0; i < turns; i++) {
            sum += (long) handle.invokeExact(7);
        }
        return sum;
    }

    static MethodHandle threeNames() throws ReflectiveOperationException {
        MethodHandles.Lookup lookup = MethodHandles.lookup();
        MethodHandle add = lookup.findStatic(ThreeNames.class, "add", MethodType.methodType(int.class, int.class, int.class));
        MethodHandle same = lookup.findStatic(ThreeNames.class, "same", MethodType.methodType(int.class, int.class));
        MethodHandle bound = MethodHandles.insertArguments(add, 0, 5);
        return MethodHandles.filterArguments(bound, 0, same).asType(MethodType.methodType(long.class, int.class));
    }

    public static void main(String[] words) throws Throwable {
        MethodHandle handle = threeNames();
        int turns = Integer.parseInt(words[0]);
        long sum = 0;
        for (int i = 0; i < 5; i++) {
            sum += run(handle, turns);
        }
        double best = Double.MAX_VALUE;
        for (int i = 0; i < 9; i++) {
            long begun = System.nanoTime();
            sum += run(handle, turns);
            best = Math.min(best, (System.nanoTime() - begun) / (double) turns);
        }
        System.out.println(best + " ns a call, sum " + sum);
    }
}
