/** Runs the scenarios that are named, or lists them all. */
public class Scenarios {
    int number = 1;
    long wide = 2;
    boolean flag;
    String text = "text";
    static int shared = 3;

    static native String described(int at);
    static native void run(String name, Scenarios object, String text, int[] numbers, Object lock);
    native void called();
    static native void registered(String text);
    static native long many(int a, double b, long c, String d, int e, long f, int g, String h, double i, double j,
                            double k, double l, double m, double n, double o, double p, double q, long r, String s);
    static native double half(double value, float other);
    static native Object returns(boolean isDead);
    static native void inVirtual(Object lock);
    static native Object globalOf(Object object);
    static native long kept();
    static native void deletes(long global);

    static native long makes(Class<?> of);

    void nothing() {}

    int answer() {
        return 42;
    }

    void throwing() {
        throw new IllegalArgumentException("thrown by Java");
    }

    void callback() {
        called();
    }

    String joined(int a, long b, double c, String d, float e, Object f) {
        return a + " " + b + " " + c + " " + d + " " + e + " " + (f != null);
    }

    static void checkArguments() {
        long sum = many(1, 2, 3, "abcd", 5, 6, 7, "efg", 1, 1, 1, 1, 1, 1, 1, 1, 2, 11, "xy");
        if (sum != 1 + 2 + 3 + 5 + 6 + 7 + 8 + 2 + 11 + 9) {
            System.err.println("WRONG: the sum of the arguments is " + sum);
        }
        if (half(5, 1.5f) != 4.0) {
            System.err.println("WRONG: half is " + half(5, 1.5f));
        }
    }

    static void collect() throws Exception {
        for (int turn = 0; turn < 3; turn++) {
            System.gc();
            Thread.sleep(20);
        }
    }

    static void unjudged() {
        globalOf("kept by a global reference");
        System.loadLibrary("unjudged");
        deletes(kept());
    }

    static long made() {
        System.loadLibrary("unjudged");
        return makes(Object.class);
    }

    /** On a JDK that has them, without naming what older ones lack. */
    static void virtually() throws Exception {
        Object lock = new Object();
        Runnable task = () -> inVirtual(lock);
        for (int turn = 0; turn < 10; turn++) {
            try {
                var start = Thread.class.getMethod("startVirtualThread", Runnable.class);
                ((Thread) start.invoke(null, task)).join();
            } catch (NoSuchMethodException | java.lang.reflect.InvocationTargetException isOlder) {
                task.run();
            }
        }
    }

    static void runOne(String name) {
        System.err.println("== " + name);
        try {
            run(name, new Scenarios(), new String("some text"), new int[] {1, 2, 3, 4, 5, 6, 7, 8}, new Object());
        } catch (Throwable thrown) {
            // What a scenario leaves pending.
        }
    }

    public static void main(String[] names) {
        System.loadLibrary("scenarios");
        if (names.length == 0) {
            String text;
            for (int at = 0; (text = described(at)) != null; at++) {
                System.out.println(text);
            }
            return;
        }
        for (String name : names) {
            runOne(name);
        }
        System.err.println("== end");
    }
}
