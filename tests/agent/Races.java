import java.util.Arrays;
import java.util.List;

/** Threads that make calls at the same time. Each does one kind of work again and again, beside all others. */
public class Races {
    static final int THREADS_OF_A_KIND = 2;

    int number = 3;
    static final Object[] objects = new Object[64];
    static volatile boolean isOver;

    static native String described(int kind);
    static native void opens(Object[] objects, int[] numbers, String text, Races object);
    static native void works(int kind, int seed, Object own);
    static native void keeps(Object one, Object other);
    static native Object passes(Object one);
    native int idles(int number);

    int answers(Object any, int number) {
        return number;
    }

    static void throwing() {
        throw new IllegalStateException("thrown");
    }

    static void waits(Object lock) throws InterruptedException {
        synchronized (lock) {
            lock.wait(0, 200_000);
        }
    }

    /** Native methods without a call inside, whose arguments other threads use. */
    static void quiet(int seed) {
        Races own = new Races();
        for (int turn = 0; turn < 200; turn++) {
            keeps(own, objects[(seed + turn) % objects.length]);
            if (passes(own) != own || own.idles(turn) != turn) {
                System.err.println("WRONG: another answer");
            }
        }
    }

    /** Other objects stand in the array that native code reads. */
    static void renew(int seed) {
        for (int at = 0; at < objects.length; at++) {
            objects[at] = new int[1 + (seed + at) % 9];
        }
    }

    static byte[] coming() throws Exception {
        try (java.io.InputStream in = Races.class.getResourceAsStream("Coming.class")) {
            return in.readAllBytes();
        }
    }

    /** A thread that was started: a virtual one if that is wanted, and if the machine has such. */
    static Thread started(Runnable work, boolean isVirtual) throws ReflectiveOperationException {
        if (isVirtual && Runtime.version().feature() >= 21) {
            return (Thread) Thread.class.getMethod("startVirtualThread", Runnable.class).invoke(null, work);
        }
        Thread thread = new Thread(work);
        thread.start();
        return thread;
    }

    /** A library comes and goes, one at a time: each registers a native method of one class. */
    static synchronized void useLibrary(int turn) throws Exception {
        Comes.useLibrary(System.getProperty("java.library.path") + "/libcoming.so", turn);
    }

    /** What Java does of itself; all else is native. */
    static void work(String name, int kind, int seed) throws Exception {
        switch (name) {
            case "quiet" -> quiet(seed);
            case "renews" -> renew(seed);
            case "classes" -> Comes.useClass(coming());
            case "collects" -> {
                System.gc();
                Thread.sleep(2);
            }
            case "begins" -> {
                Thread thread = started(() -> works(kind, seed, "text"), seed % 2 == 0);
                thread.join();
            }
            case "libraries" -> useLibrary(seed);
            default -> works(kind, seed, new Races());
        }
    }

    static void repeat(String name, int kind, int seed) {
        try {
            for (int turn = seed; !isOver; turn += 101) {
                work(name, kind, turn);
            }
        } catch (Exception thrown) {
            throw new IllegalStateException(thrown);
        }
    }

    static Thread begin(String name, int kind, int seed, boolean isDaemon) {
        Thread thread = new Thread(() -> repeat(name, kind, seed), name);
        thread.setDaemon(isDaemon);
        thread.start();
        return thread;
    }

    /** What deletes references that another thread deletes too must be named, since the machine may take that ill. */
    static boolean isWanted(String name, List<String> wanted) {
        return wanted.isEmpty() ? !name.equals("twice") : wanted.contains(name);
    }

    /** Words: how many milliseconds; `ends`, where it ends while threads run, or `joins`; the kinds of work. */
    public static void main(String[] words) throws Exception {
        System.loadLibrary("races");
        System.loadLibrary("comes");
        renew(0);
        opens(objects, new int[4000], "a text of races", new Races());
        List<String> wanted = Arrays.asList(words).subList(2, words.length);
        boolean ends = words[1].equals("ends");
        List<Thread> threads = new java.util.ArrayList<>();
        String name;
        for (int kind = 0; (name = described(kind)) != null; kind++) {
            for (int at = 0; at < THREADS_OF_A_KIND && isWanted(name, wanted); at++) {
                threads.add(begin(name, kind, at, ends));
            }
        }
        Thread.sleep(Integer.parseInt(words[0]));
        System.err.println("== end");
        if (!ends) {
            isOver = true;
            for (Thread thread : threads) {
                thread.join();
            }
        }
    }
}
