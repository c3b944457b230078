/** Native methods that make no JNI call of their own, or make the first one late. */
public class Quiet {
    static native void idle();
    static native long sum(int a, long b, double c, float d, int e, long f, int g, double h);
    static native double half(double value);
    native void keeps();
    static native void keepsText(int number, String text, Object none);
    static native Object returns(Object object);
    static native Object returnsGlobal();
    static native void uses();
    static native void usesText();
    static native void makes(Object object, boolean isDead);
    native void late(String text);
    static native void stacked(long a, long b, String text, long c, long d, double e, Object none, String other);
    native void throwing();
    native void down(int level);
    static native void usesReceiver(int level);
    static native void pushes();
    static native void pops();
    static native void popsAside(String text);
    static native void pushesAside(String text);
    static native void deleted(String text);
    static native void detaches();
    static native void begins(int[] numbers);
    static native void ends();
    static native void owns(Object lock);
    native void stays();
    static native void usesOther();

    /** Calls that are called back: they make calls, and none. */
    static void back(int number) {
        idle();
        new Quiet().keeps();
        makes("made", true);
        idle();
    }

    static void deeper(int level) {
        idle();
        new Quiet().down(level);
    }

    static void waits(Object lock) throws InterruptedException {
        lock.wait(1);
        idle();
    }

    /** What is kept so deep stands where no later argument does. */
    static void deep(int level, Runnable kept) {
        if (level > 0) {
            deep(level - 1, kept);
        } else {
            kept.run();
        }
    }

    static void idles() {
        for (int at = 0; at < 100; at++) {
            idle();
            if (sum(at, 2, 3, 4, 5, 6, 7, 8) != at + 35 || half(at) != at / 2.0) {
                throw new AssertionError("an answer");
            }
        }
    }

    static void returning() {
        String text = "text";
        if (returns(text) != text || returns(null) != null) {
            throw new AssertionError("what is returned");
        }
        makes(text, false);
        if (returnsGlobal() != text) {
            throw new AssertionError("what is returned of a global reference");
        }
        makes(text, true);
        returnsGlobal();
    }

    static void throwsAside() {
        try {
            new Quiet().throwing();
            throw new AssertionError("nothing was thrown");
        } catch (IllegalStateException it) {
            idles();
            makes("made", true);
        }
    }

    static void goesDown() {
        deep(9, () -> new Quiet().down(7));
        usesReceiver(3);
        usesReceiver(4);
    }

    /** Frames of one method aren't those of the next. */
    static void frames() {
        pushes();
        idle();
        pops();
        popsAside("text");
        pushesAside("text");
    }

    static void region() {
        begins(new int[100]);
        idle();
        new Quiet().keeps();
        ends();
        idle();
    }

    /** Another thread's reference is used while its method runs, after that, and when the thread has ended. */
    static void otherThread() throws InterruptedException {
        Thread thread = new Thread(() -> {
            idle();
            new Quiet().stays();
            deep(9, () -> new Quiet().stays());
        });
        thread.start();
        usesOther();
        usesOther();
        thread.join();
        uses();
    }

    static void endedThread() throws InterruptedException {
        Thread thread = new Thread(() -> {
            idle();
            new Quiet().keeps();
        });
        thread.start();
        thread.join();
        uses();
    }

    /** Threads use what others keep, at the same time. */
    static void atOnce() throws InterruptedException {
        Thread[] threads = new Thread[4];
        for (int at = 0; at < threads.length; at++) {
            threads[at] = new Thread(() -> {
                for (int turn = 0; turn < 20_000; turn++) {
                    new Quiet().keeps();
                    deep(turn % 7, () -> new Quiet().keeps());
                    returns(Quiet.class);
                    if (turn % 5 == 0) {
                        uses();
                        makes("made", true);
                    }
                }
            });
            threads[at].start();
        }
        for (Thread thread : threads) {
            thread.join();
        }
    }

    static void runCase(String name) throws Exception {
        switch (name) {
            case "idles" -> idles();
            case "keeps" -> {
                deep(9, () -> new Quiet().keeps());
                idles();
                uses();
            }
            case "keeps_text" -> {
                deep(9, () -> keepsText(1, "kept", null));
                usesText();
            }
            case "returns" -> returning();
            case "late" -> new Quiet().late("some text");
            case "stacked" -> stacked(1, 2, "text", 3, 4, 5, null, "other");
            case "throws" -> throwsAside();
            case "recursive" -> goesDown();
            case "frames" -> frames();
            case "deleted" -> deleted(new String("text"));
            case "detaches" -> {
                detaches();
                idle();
            }
            case "region" -> region();
            case "owns" -> owns(new Object());
            case "other_thread" -> otherThread();
            case "ended_thread" -> endedThread();
            case "at_once" -> atOnce();
            default -> throw new AssertionError(name);
        }
    }

    public static void main(String[] names) throws Exception {
        System.loadLibrary("quiet");
        // So that the thread is known: what follows is as it is in the middle of a program.
        idle();
        for (String name : names) {
            System.err.println("== " + name);
            runCase(name);
        }
        System.err.println("== end");
    }
}
