import java.util.Locale;
import java.util.concurrent.CountDownLatch;

/** Native code uses references beside many threads. */
public class Crowd {
    static native void joins();
    static native double uses(Object object, int count);
    static native void repeats(String text, int count);

    static double beside(int count) throws InterruptedException {
        CountDownLatch joined = new CountDownLatch(count), ended = new CountDownLatch(1);
        Thread[] threads = new Thread[count];
        for (int at = 0; at < count; at++) {
            threads[at] = new Thread(() -> {
                joins();
                joined.countDown();
                try {
                    ended.await();
                } catch (InterruptedException it) {
                    throw new AssertionError(it);
                }
            });
            threads[at].start();
        }
        joined.await();
        double least = Double.MAX_VALUE;
        for (int turn = 0; turn < 100; turn++) {
            least = Math.min(least, uses("text", 100));
        }
        ended.countDown();
        for (Thread thread : threads) {
            thread.join();
        }
        return least;
    }

    static void repeat(int threads, int count) {
        for (int at = 0; at < threads; at++) {
            String text = "text of " + at;
            new Thread(() -> {
                for (int turn = 0; turn < count; turn++) {
                    repeats(text, 1000);
                }
            }).start();
        }
    }

    public static void main(String[] counts) throws InterruptedException {
        System.loadLibrary("crowd");
        if (counts[0].equals("repeats")) {
            repeat(4, Integer.parseInt(counts[1]));
            return;
        }
        for (String count : counts) {
            System.out.printf(Locale.ROOT, "%s threads: %.0f%n", count, beside(Integer.parseInt(count)));
        }
        System.err.println("== end");
    }
}
