class Labels {
    /** U+0001, with which a field of the FIX protocol ends. */
    static final String END = "\1";

    static String full(String first, String last) {
        return first + " " + last;
    }

    static String pair(String name, String value) {
        return name + "=" + value;
    }

    /** The call site gets the Integer itself; javac 17.0.15 calls String.valueOf for objects of other classes. */
    static String account(boolean open, long balance, Integer owner, int number) {
        return "open=" + open + " balance=" + balance + " owner=" + owner + " number=" + number;
    }

    static String field(int tag, char value) {
        return tag + "=" + value + END;
    }
}
