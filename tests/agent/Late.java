/** Native code that stores into memory which it gave back: at once in so many threads. */
public class Late {
    static native void run(String text);

    public static void main(String[] words) throws Exception {
        System.loadLibrary("late");
        Thread[] threads = new Thread[Integer.parseInt(words[0])];
        for (int at = 0; at < threads.length; at++) {
            threads[at] = new Thread(() -> run("text".repeat(400)));
            threads[at].start();
        }
        for (Thread thread : threads) {
            thread.join();
        }
        System.err.println("== end");
    }
}
