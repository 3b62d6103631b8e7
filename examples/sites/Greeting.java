import java.util.function.IntUnaryOperator;

class Greeting {
    static String greet(String name, int times) {
        return "Hello, " + name + ", " + times + " times";
    }

    static IntUnaryOperator adding(int number) {
        return other -> other + number;
    }

    public static void main(String[] args) {
        Runnable runnable = Greeting::nothing;
        runnable.run();
        System.out.println(greet("you", adding(1).applyAsInt(2)));
    }

    static void nothing() {
    }
}
