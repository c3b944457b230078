import java.util.ArrayList;
import java.util.Arrays;
import java.util.List;
import java.util.Locale;

/** Times JNI calls: the median of so many samples, in nanoseconds a call. */
public class Bench {
    static {
        System.loadLibrary("bench");
    }

    int number = 1;

    static native double lengths(String text, int count);
    static native double locals(String text, int count);
    static native double fields(Object object, int count);
    static native double calls(Object object, int count);
    static native double items(Object[] array, int count);
    static native double criticals(int[] array, int count);
    static native double criticalsRead(int[] array, int count);
    static native double criticalsFilled(int[] array, int count);
    static native double attached(String text, int count);
    static native void empty();
    native void empty(Object one, int number, Object other);

    int answer() {
        return number;
    }

    interface Sample {
        double take(int count) throws Exception;
    }

    /** A class that many loaders have, with a field where this one has its own. */
    public static class Other {
        int number = 1;
    }

    static class Loader extends ClassLoader {
        Object make(byte[] bytes) throws Exception {
            return defineClass("Bench$Other", bytes, 0, bytes.length).getDeclaredConstructor().newInstance();
        }
    }

    static final int OTHERS = 4000;

    /** Objects of so many classes, of each of which native code has read the field. */
    static List<Object> others() throws Exception {
        List<Object> made = new ArrayList<>();
        try (java.io.InputStream in = Bench.class.getResourceAsStream("Bench$Other.class")) {
            byte[] bytes = in.readAllBytes();
            for (int at = 0; at < OTHERS; at++) {
                made.add(new Loader().make(bytes));
                fields(made.get(at), 1);
            }
        }
        return made;
    }

    static double empties(int count) {
        long begun = System.nanoTime();
        for (int at = 0; at < count; at++) {
            empty();
        }
        return (System.nanoTime() - begun) / (double) count;
    }

    /** The same of a method with references. */
    static double empties(Bench object, Object other, int count) {
        long begun = System.nanoTime();
        for (int at = 0; at < count; at++) {
            object.empty(other, at, object);
        }
        return (System.nanoTime() - begun) / (double) count;
    }

    interface Work {
        double take(String text, int count);
    }

    /** Calls by so many threads at once: nanoseconds for each call of all. */
    static double together(Work work, int many, int count) throws Exception {
        Thread[] threads = new Thread[many];
        long begun = System.nanoTime();
        for (int at = 0; at < threads.length; at++) {
            String text = "text " + at;
            threads[at] = new Thread(() -> work.take(text, count));
            threads[at].start();
        }
        for (Thread thread : threads) {
            thread.join();
        }
        return (System.nanoTime() - begun) / ((double) many * count);
    }

    static final String BESIDE = "GetIntField-beside-" + OTHERS;
    static String only;

    static void median(String name, int samples, int count, Sample sample) throws Exception {
        if (only != null && !only.equals(name)) {
            return;
        }
        double[] taken = new double[samples];
        sample.take(count);
        for (int at = 0; at < samples; at++) {
            taken[at] = sample.take(count);
        }
        Arrays.sort(taken);
        System.out.printf(Locale.ROOT, "%s %.1f%n", name, taken[samples / 2]);
    }

    public static void main(String[] words) throws Exception {
        int samples = Integer.parseInt(words[0]), count = Integer.parseInt(words[1]);
        only = words.length > 2 ? words[2] : null;
        Bench object = new Bench();
        int[] array = new int[16384];
        median("GetStringLength", samples, count, n -> lengths("a text", n));
        median("NewLocalRef+DeleteLocalRef", samples, count, n -> locals("a text", n));
        median("GetIntField", samples, count, n -> fields(object, n));
        median("CallIntMethod+ExceptionCheck", samples, count, n -> calls(object, n));
        median("GetObjectArrayElement+DeleteLocalRef", samples, count, n -> items(new Object[] {"text"}, n));
        median("critical-64KB", samples, Math.max(1, count / 20), n -> criticals(array, n));
        median("critical-64KB-read", samples, Math.max(1, count / 20), n -> criticalsRead(array, n));
        median("critical-64KB-filled", samples, Math.max(1, count / 20), n -> criticalsFilled(array, n));
        median("empty-native", samples, count, n -> empties(n));
        median("empty-native-3-references", samples, count, n -> empties(object, array, n));
        median("GetStringLength-attached", samples, count, n -> attached("a text", n));
        // Each begins threads, which takes as long as thousands of calls.
        int fewer = Math.max(3, samples / 20);
        for (int many : only == null ? new int[] {4} : new int[] {1, 4}) {
            median("GetStringLength-by-" + many, fewer, 100 * count, n -> together(Bench::lengths, many, n));
            median("NewLocalRef+DeleteLocalRef-by-" + many, fewer, 100 * count,
                   n -> together(Bench::locals, many, n));
        }
        List<Object> others = only == null || only.equals(BESIDE) ? others() : List.of(object);
        median(BESIDE, samples, count, n -> fields(others.get(others.size() / 2), n));
    }
}
