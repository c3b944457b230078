/** Situations that need a machine or options of their own. */
public class Situations {
    static native void spans(Object lock, int[] numbers);
    static native void leaves(Object object, int[] numbers);
    static native void plugs(String path);
    static native void dead(String text);
    static native void twice(int[] numbers);
    static native void registers();
    static native void registered();
    static native void first(String text);
    static native void second(String text);
    static native void turn(Situations object, int turns);
    static native void crashes();
    static native void lends(String text);

    int count;

    void back() {
        count++;
    }

    /** Loads the agent into this machine. */
    static void loadAgent() throws Exception {
        String id = Long.toString(ProcessHandle.current().pid());
        com.sun.tools.attach.VirtualMachine machine = com.sun.tools.attach.VirtualMachine.attach(id);
        machine.loadAgentPath(System.getProperty("agent"), System.getProperty("options"));
        machine.detach();
        System.err.println("== spans");
    }

    @SuppressWarnings("unchecked")
    static int loadOnce(java.net.URL here) throws Exception {
        try (java.net.URLClassLoader loader = new java.net.URLClassLoader(new java.net.URL[] {here}, null)) {
            Class<?> of = loader.loadClass("Loaded");
            Object made = of.getDeclaredConstructor().newInstance();
            return ((java.util.function.ToIntFunction<Object>) made).applyAsInt("other");
        }
    }

    /** Loads a class and its library by a loader that goes again, many times. */
    static void unloads() throws Exception {
        java.net.URL here = new java.io.File(System.getProperty("loaded")).toURI().toURL();
        for (int turn = 0; turn < 20; turn++) {
            if (loadOnce(here) != 42) {
                System.err.println("WRONG: the answer");
            }
            for (int again = 0; again < 4; again++) {
                System.gc();
                Thread.sleep(20);
            }
        }
    }

    /** The program ends while threads are lent buffers. */
    static void lend() throws Exception {
        for (int count = 0; count < 3; count++) {
            Thread thread = new Thread(() -> lends("text"));
            thread.setDaemon(true);
            thread.start();
        }
        Thread.sleep(200);
    }

    public static void main(String[] words) throws Exception {
        String situation = words[0];
        System.err.println("== " + situation);
        if (situation.equals("wrapped")) {
            System.loadLibrary(System.getProperty("wrapped"));
            first("text");
            second("text");
        } else if (System.getProperty("library") != null) {
            System.load(System.getProperty("library"));
        } else {
            System.loadLibrary("situations");
        }
        switch (situation) {
            case "spans" -> spans(new Object(), new int[] {1, 2, 3});
            case "leaves" -> leaves(new Object(), new int[] {1, 2, 3});
            case "dead" -> dead("text");
            case "twice" -> twice(new int[] {1, 2, 3});
            case "registers" -> {
                registers();
                registered();
            }
            case "turn" -> {
                long until = System.nanoTime() + Long.parseLong(words[1]) * 1_000_000_000L;
                while (System.nanoTime() < until) {
                    turn(new Situations(), Integer.parseInt(words[2]));
                    Thread.sleep(words.length > 3 ? Long.parseLong(words[3]) : 0);
                }
            }
            case "plugs" -> {
                for (int turn = 0; turn < 3; turn++) {
                    plugs(words[1]);
                    plugs(words[2]);
                }
            }
            case "unloads" -> unloads();
            case "crashes" -> crashes();
            case "lends" -> lend();
            case "named" -> {
                Thread.currentThread().setName("a\nthread");
                dead("text");
            }
            case "constructs" -> System.loadLibrary("constructs");
            default -> { }
        }
        System.err.println("== end");
    }
}
