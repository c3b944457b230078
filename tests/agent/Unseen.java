/** Frames of local references that nobody tells, and native methods without a stub. */
public class Unseen {
    static native void arms();
    static native void catches();
    static native void makes();
    static native void deletes();
    static native void drops(Object one, Object two, Object three);
    static native int uses(String text, Object object);
    static native void fails();
    static native void within();
    static native void around();
    static native int early(Object number);
    static native void twice();
    static native void outlives();
    static native void earlier();

    static void caught() {
        try {
            throw new IllegalStateException("thrown");
        } catch (IllegalStateException thrown) {
            // It was thrown to be caught.
        }
    }

    static void collects() throws InterruptedException {
        System.gc();
        Thread.sleep(5);
    }

    /** Native methods that a call of `turn` calls, beside a library that isn't judged. */
    static void turn() {
        makes();
        Bystander.holds(Unseen.class);
        try {
            fails();
        } catch (NoClassDefFoundError thrown) {
            // There is no such class.
        }
        if (uses("text", new int[2]) != 8) {
            System.err.println("WRONG: the sum of the lengths");
        }
        drops(new Object(), new Object(), new Object());
    }

    /** Calls with arguments at another place of the stack for each depth. */
    static void down(int depth) {
        if (depth > 0) {
            down(depth - 1);
        } else {
            drops(new Object(), new Object(), new Object());
        }
    }

    /** Has its own values where those arguments stood. */
    static long up(int depth, long one, long two) {
        long here = one * 3 + two * 5 + depth;
        if (depth > 0) {
            return up(depth - 1, one, two) + here;
        }
        deletes();
        return here;
    }

    static void loadAgent() throws Exception {
        String id = Long.toString(ProcessHandle.current().pid());
        com.sun.tools.attach.VirtualMachine machine = com.sun.tools.attach.VirtualMachine.attach(id);
        machine.loadAgentPath(System.getProperty("agent"), System.getProperty("options"));
        machine.detach();
    }

    /** The methods were bound before the agent came, but `within`. */
    static void late() throws Exception {
        turn();
        around();
        loadAgent();
        turn();
        around();
        within();
        for (int depth = 20; depth < 60; depth++) {
            down(depth);
        }
        long sum = 0;
        for (int depth = 90; depth >= 0; depth--) {
            sum += 13 + depth;
        }
        if (up(90, 1, 2) != sum) {
            System.err.println("WRONG: the sum");
        }
    }

    /** Threads that end, of Java's and of the system's. */
    static void ends() throws Exception {
        for (int turn = 0; turn < 40; turn++) {
            Thread thread = new Thread(Unseen::makes);
            thread.start();
            thread.join();
        }
        twice();
    }

    public static void main(String[] words) throws Exception {
        System.loadLibrary("unseen");
        System.err.println("== " + words[0]);
        switch (words[0]) {
            case "events" -> {
                System.load(System.getProperty("tool"));
                arms();
                catches();
            }
            case "outlives" -> {
                System.load(System.getProperty("tool"));
                arms();
                outlives();
            }
            case "early" -> {
                System.load(System.getProperty("tool"));
                if (early(Integer.valueOf(7)) != 22) {
                    System.err.println("WRONG: the sum");
                }
            }
            case "process" -> ProcessHandle.current().info().arguments();
            case "late" -> late();
            case "ends" -> ends();
            case "earlier" -> earlier();
            case "frames" -> Bystander.attaches(System.getProperty("judged"));
            default -> {
                turn();
                around();
                within();
            }
        }
        System.err.println("== end");
    }
}

/** Native methods that aren't judged. */
class Bystander {
    static {
        System.loadLibrary("bystander");
    }

    static native void holds(Class<?> unseen);
    static native void attaches(String library);
}
