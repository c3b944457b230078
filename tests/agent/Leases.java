import java.lang.ref.WeakReference;

/** Runs the cases that are named, or lists them all: calls repeated at one place, until they are to be denied. */
public class Leases {
    int number = 1;
    long wide = 2;
    boolean flag;
    static int shared = 3;

    static native String described(int at);
    static native void opens(String folder);
    static native void run(String name, Leases object, String text, int[] numbers, String[] texts);
    static native void entered(String name, int turn);

    void sometimes(int turn) {
        if (turn == 4) {
            throw new IllegalStateException("the fourth turn");
        }
    }

    void takes(Object any) {}

    static void enters(String name, int turn) {
        entered(name, turn);
    }

    static void nothing() {}

    /** A class that goes again, with a field. */
    public static class Small {
        int number = 4;
    }

    static class Loader extends ClassLoader {
        Class<?> define(byte[] bytes) {
            return defineClass("Leases$Small", bytes, 0, bytes.length);
        }
    }

    static WeakReference<Class<?>> newest;

    /** An object of a class of its own. */
    static Object fresh() throws Exception {
        try (java.io.InputStream from = Leases.class.getResourceAsStream("Leases$Small.class")) {
            Class<?> of = new Loader().define(from.readAllBytes());
            newest = new WeakReference<>(of);
            return of.getDeclaredConstructor().newInstance();
        }
    }

    /** Collects until that class is gone. */
    static void collects() throws Exception {
        for (int turn = 0; turn < 40 && newest.get() != null; turn++) {
            System.gc();
            Thread.sleep(20);
        }
        if (newest.get() != null) {
            System.err.println("WRONG: the class is still there");
        }
    }

    static int[] array() {
        int[] made = new int[7];
        of = new WeakReference<>(made);
        return made;
    }

    static WeakReference<int[]> of;

    /** Collects until that array is gone. */
    static void collectsArray() throws Exception {
        for (int turn = 0; turn < 40 && of.get() != null; turn++) {
            System.gc();
            Thread.sleep(20);
        }
    }

    public static void main(String[] names) throws Exception {
        System.loadLibrary("leases");
        if (names.length == 0) {
            String described;
            for (int at = 0; (described = described(at)) != null; at++) {
                System.out.println(described);
            }
            return;
        }
        opens(System.getProperty("java.library.path"));
        for (String name : names) {
            System.err.println("== " + name);
            try {
                run(name, new Leases(), "a text", new int[] {1, 2, 3}, new String[] {"a", "b", "c"});
            } catch (IllegalStateException | IndexOutOfBoundsException thrown) {
                System.err.println("WRONG: it threw " + thrown);
            }
        }
        System.err.println("== end");
    }
}
