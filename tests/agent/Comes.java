import java.lang.management.ManagementFactory;
import javax.management.ObjectName;

/** Classes and libraries that come and go: what the agent holds stays as much. */
public class Comes {
    static native void watch();
    static native long held();
    static native void uses(Class<?> of, Object made);
    static native void loads(String path, Class<?> of);
    static native int registered(int number);

    static class Loader extends ClassLoader {
        Class<?> define(byte[] bytes) {
            return defineClass("Coming", bytes, 0, bytes.length);
        }
    }

    /** A class of a new loader, its members by IDs, and its native methods. */
    static void useClass(byte[] bytes) throws Exception {
        Class<?> of = new Loader().define(bytes);
        Object made = of.getDeclaredConstructor().newInstance();
        uses(of, made);
        ((Runnable) made).run();
    }

    /** A library under a new name, which registers a native method of this class. */
    static void useLibrary(String path, int turn) throws Exception {
        java.nio.file.Path from = java.nio.file.Path.of(path), to = java.nio.file.Path.of(path + "." + turn);
        java.nio.file.Files.createLink(to, from);
        loads(to.toString(), Comes.class);
        java.nio.file.Files.delete(to);
    }

    /** How many weak references of JNI there are. */
    static long weakReferences() throws Exception {
        String text = (String) ManagementFactory.getPlatformMBeanServer().invoke(
            new ObjectName("com.sun.management:type=DiagnosticCommand"), "threadPrint",
            new Object[] {new String[0]}, new String[] {String[].class.getName()});
        java.util.regex.Matcher found = java.util.regex.Pattern.compile("weak refs: (\\d+)").matcher(text);
        return found.find() ? Long.parseLong(found.group(1)) : -1;
    }

    static void tell(String when) throws Exception {
        for (int turn = 0; turn < 4; turn++) {
            System.gc();
            Thread.sleep(50);
            held();
        }
        System.out.println(when + " " + held() + " " + weakReferences());
    }

    public static void main(String[] words) throws Exception {
        System.err.println("== " + words[0]);
        System.loadLibrary("comes");
        byte[] bytes;
        try (java.io.InputStream in = Comes.class.getResourceAsStream("Coming.class")) {
            bytes = in.readAllBytes();
        }
        weakReferences();
        watch();
        int turns = Integer.parseInt(words[1]);
        for (int turn = 0; turn < turns; turn++) {
            if (turn == turns / 2) {
                tell("half");
            }
            if (words[0].equals("classes")) {
                useClass(bytes);
            } else {
                useLibrary(words[2], turn);
            }
            if (turn % 100 == 99) {
                System.gc();
            }
        }
        tell("end");
        System.err.println("== end");
    }
}
