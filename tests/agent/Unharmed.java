import java.awt.Graphics2D;
import java.awt.image.BufferedImage;
import java.util.Arrays;

/** Programs whose doings are the same with the agent and without it: what isn't is told as WRONG. */
public class Unharmed {
    static int counted;

    static native void beyond(boolean[] four);
    static native void keeps(String text, int[] numbers);
    static native void sets();
    static native void finds(Object one, Object two, Object three, Object four, Object five, Object six, Object seven,
                             Object eight, Object nine, boolean checks);
    static native void shares(int[] numbers, String wide);
    static native void fields(Object[] objects);
    native void results();
    static native void checked(String text);

    static long number;

    void nothing() {}

    boolean truth() {
        return true;
    }

    long wide() {
        return number;
    }

    static long wideForAll() {
        return number;
    }

    public static class Small {
        public int number = 7;
    }

    static class Loader extends ClassLoader {
        Class<?> define(byte[] bytes) {
            return defineClass("Unharmed$Small", bytes, 0, bytes.length);
        }
    }

    /** Each of a class of its own, with a field at one offset. */
    static Object[] ofManyClasses(int count) throws Exception {
        Object[] objects = new Object[count];
        try (java.io.InputStream from = Unharmed.class.getResourceAsStream("Unharmed$Small.class")) {
            byte[] bytes = from.readAllBytes();
            for (int at = 0; at < count; at++) {
                objects[at] = new Loader().define(bytes).getDeclaredConstructor().newInstance();
            }
        }
        return objects;
    }

    /** An image that is drawn onto itself, so that the JDK's own code holds one array twice. */
    static void draws() {
        BufferedImage image = new BufferedImage(64, 64, BufferedImage.TYPE_INT_RGB);
        for (int at = 0; at < 64 * 64; at++) {
            image.setRGB(at % 64, at / 64, at * 0x10305);
        }
        Graphics2D graphics = image.createGraphics();
        graphics.drawImage(image, 10, 5, null);
        graphics.drawImage(image, 0, 0, 30, 30, 20, 20, 50, 64, null);
        graphics.dispose();
        System.out.println(Arrays.hashCode(image.getRGB(0, 0, 64, 64, null, 0, 64)));
    }

    /** The first turn links the methods. */
    static void between() {
        Object of = Unharmed.class;
        for (int turn = 0; turn < 3; turn++) {
            sets();
            finds(of, of, of, of, of, of, of, of, of, turn > 0);
        }
    }

    static void run(String name) throws Exception {
        switch (name) {
            case "beyond" -> beyond(new boolean[4]);
            case "keeps" -> keeps("text", new int[8]);
            case "between" -> between();
            case "results" -> new Unharmed().results();
            case "shares" -> shares(new int[8], "\u4e00\u4e8c");
            case "fields" -> fields(ofManyClasses(1000));
            case "draws" -> draws();
            case "checked" -> checked("text");
            default -> System.err.println("WRONG: there is no " + name);
        }
    }

    public static void main(String[] names) throws Exception {
        System.loadLibrary("unharmed");
        for (String name : names) {
            System.err.println("== " + name);
            run(name);
        }
        System.err.println("== end");
    }
}
