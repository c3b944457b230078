import java.lang.ref.WeakReference;

/** An object whose class is unloaded while a weak reference names it. */
public class Gone {
    static native void refers(Object object);
    static native void makes(int count);
    static native void deletes();

    public static class Small {}

    static class Loader extends ClassLoader {
        Class<?> define(byte[] bytes) {
            return defineClass("Gone$Small", bytes, 0, bytes.length);
        }
    }

    static WeakReference<Class<?>> refer() throws Exception {
        try (java.io.InputStream from = Gone.class.getResourceAsStream("Gone$Small.class")) {
            Class<?> of = new Loader().define(from.readAllBytes());
            refers(of.getDeclaredConstructor().newInstance());
            return new WeakReference<>(of);
        }
    }

    static void collect() throws Exception {
        System.gc();
        Thread.sleep(50);
    }

    public static void main(String[] words) throws Exception {
        System.loadLibrary("gone");
        System.err.println("== gone");
        WeakReference<Class<?>> of = refer();
        for (int turn = 0; turn < 40 && of.get() != null; turn++) {
            collect();
        }
        if (of.get() != null) {
            System.err.println("WRONG: the class is still there");
        }
        for (int turn = 0; turn < 12; turn++) {
            makes(3000);
            collect();
        }
        deletes();
        System.err.println("== end");
    }
}
