/** Runs the cases that are named, or lists them all: local references that are made, used and deleted in all orders. */
public class Nursery {
    int number = 1;
    long wide = 2;
    Object kept = "kept";

    static native String described(int at);
    static native void opens(String folder);
    static native void run(String name, Nursery object, String text, Object[] objects);
    static native void entered(String name, int turn);
    static native Object returned(String name, Object object);

    void takes(Object any) {}

    Object gives() {
        return new Object();
    }

    static Throwable exception() {
        return new IllegalStateException("thrown");
    }

    static void enters(String name, int turn) {
        entered(name, turn);
    }

    /** The library makes a call while it is loaded. */
    static void loads() {
        System.loadLibrary("leasedone");
    }

    /** What the native method returned must be this object, or nothing where it may not be returned. */
    static void returns(String name, Object object) {
        Object answer = returned(name, object);
        if (answer != object && answer != null) {
            System.err.println("WRONG: another object was returned");
        }
    }

    /** Another thread runs a native method, and ends. */
    static void inThread(String name, int turn) throws InterruptedException {
        Thread thread = new Thread(() -> entered(name, turn));
        thread.start();
        thread.join();
    }

    /** Threads that use each other's references. */
    static void atOnce(String name, int threads) throws InterruptedException {
        Thread[] all = new Thread[threads];
        for (int at = 0; at < threads; at++) {
            int turn = at;
            all[at] = new Thread(() -> entered(name, turn));
            all[at].start();
        }
        for (Thread thread : all) {
            thread.join();
        }
    }

    public static void main(String[] names) throws Exception {
        System.loadLibrary("nursery");
        if (names.length == 0) {
            String described;
            for (int at = 0; (described = described(at)) != null; at++) {
                System.out.println(described);
            }
            return;
        }
        opens(System.getProperty("java.library.path"));
        for (String name : names) {
            System.err.println("== " + name);
            try {
                run(name, new Nursery(), new String("a text"), new Object[] {"a", new int[3], new Object(), null});
            } catch (IllegalStateException thrown) {
                System.err.println("WRONG: it threw " + thrown);
            }
        }
        System.err.println("== end");
    }
}
