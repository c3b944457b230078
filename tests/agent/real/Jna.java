import com.sun.jna.*;
import java.util.Arrays;

/** Calls into the C library by libjna-java: callbacks, structures, strings, threads that attach. */
public class Jna {
    public interface C extends Library {
        C INSTANCE = Native.load("c", C.class);

        interface Compares extends Callback {
            int compare(Pointer one, Pointer other);
        }

        void qsort(Memory items, NativeLong count, NativeLong size, Compares compares);
        int atoi(String text);
        NativeLong strlen(String text);
        String getenv(String name);
        int snprintf(byte[] to, NativeLong size, String format, Object... values);
    }

    @Structure.FieldOrder({"quotient", "rest"})
    public static class Pair extends Structure implements Structure.ByValue {
        public int quotient;
        public int rest;
    }

    public interface Divides extends Library {
        Divides INSTANCE = Native.load("c", Divides.class);
        Pair div(int one, int other);
    }

    public static void main(String[] words) throws Exception {
        Memory items = new Memory(4 * 64);
        for (int at = 0; at < 64; at++) {
            items.setInt(4L * at, at * 37 % 64);
        }
        C.INSTANCE.qsort(items, new NativeLong(64), new NativeLong(4), (one, other) -> one.getInt(0) - other.getInt(0));
        System.out.println(Arrays.toString(items.getIntArray(0, 8)));
        System.out.println(C.INSTANCE.atoi("42") + " " + C.INSTANCE.strlen("four"));
        byte[] text = new byte[64];
        C.INSTANCE.snprintf(text, new NativeLong(64), "%d %s", 7, "seven");
        System.out.println(Native.toString(text));
        Pair pair = Divides.INSTANCE.div(17, 5);
        System.out.println(pair.quotient + " " + pair.rest);
        try {
            NativeLibrary.getInstance("c").getFunction("no_such_function");
        } catch (UnsatisfiedLinkError isMissing) {
            System.out.println("no such function");
        }
        Thread[] threads = new Thread[4];
        for (int at = 0; at < threads.length; at++) {
            threads[at] = new Thread(() -> {
                for (int turn = 0; turn < 50; turn++) {
                    C.INSTANCE.atoi("" + turn);
                }
            });
            threads[at].start();
        }
        for (Thread thread : threads) {
            thread.join();
        }
    }
}
