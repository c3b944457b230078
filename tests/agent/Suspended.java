/** Threads that are suspended at any moment: what they hold then nobody else may need. */
public class Suspended {
    static native void advised(String text);
    static native void makes();
    static native void shares(Object[] objects, int count);
    static native boolean opens();
    static native void suspends(Thread thread, boolean writes);

    static void nothing() {}

    /** Four threads meet objects that nobody met, each at about the same time. */
    static void share() throws Exception {
        byte[][] objects = new byte[5000][];
        for (int at = 0; at < objects.length; at++) {
            objects[at] = new byte[77];
        }
        java.util.concurrent.CyclicBarrier begin = new java.util.concurrent.CyclicBarrier(4);
        Thread[] threads = new Thread[4];
        for (int at = 0; at < threads.length; at++) {
            threads[at] = new Thread(() -> {
                try {
                    begin.await();
                } catch (Exception thrown) {
                    throw new IllegalStateException(thrown);
                }
                shares(objects, objects.length);
            });
            threads[at].start();
        }
        for (Thread thread : threads) {
            thread.join();
        }
    }

    public static void main(String[] words) throws Exception {
        boolean writes = words[0].equals("writes");
        System.loadLibrary("suspended");
        System.err.println("== " + words[0]);
        if (words[0].equals("shares")) {
            share();
            System.err.println("== end");
            return;
        }
        if (!opens()) {
            System.err.println("WRONG: threads can't be suspended");
        }
        Thread thread = new Thread(writes ? () -> advised("text") : Suspended::makes);
        thread.setDaemon(true);
        thread.start();
        Thread.sleep(200);
        for (int turn = 0; turn < 300; turn++) {
            suspends(thread, writes);
            Thread.sleep(0, 200_000);
        }
        System.err.println("== end");
    }
}
