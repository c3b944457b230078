/** Native code of which the agent tells what led to a call. */
public class Told {
    static native void run(String name, String text, int[] numbers, String other);
    static native void called(String text);
    static native void direct(String text);
    static native int jumps(String text);

    static RuntimeException thrown;

    /** It has a field of the name that Throwable has for its message. */
    static class Saying extends RuntimeException {
        String detailMessage = "not this one";

        Saying(String message) {
            super(message);
        }
    }

    static void back() {
        called("text");
    }

    static void throwing() {
        String said = "thrown by Java: \u00e4 \u20ac \ud83d\ude00 \ud800 \n\\";
        thrown = new Saying(said + "x".repeat(Integer.getInteger("more", 0)));
        throw thrown;
    }

    long answer(String text, int number) {
        return number;
    }

    public static void main(String[] names) {
        System.loadLibrary("told");
        for (String name : names) {
            System.err.println("== " + name);
            thrown = null;
            RuntimeException arrived = null;
            try {
                switch (name) {
                    case "direct" -> direct("text");
                    case "jumps" -> jumps("text");
                    default -> run(name, "text", new int[] {1, 2, 3}, System.getProperty("other"));
                }
            } catch (RuntimeException it) {
                arrived = it;
            }
            if (arrived != thrown && !name.equals("pending_other")) {
                System.err.println("WRONG: " + arrived + " arrives, and " + thrown + " was thrown");
            }
            if (arrived != null && !arrived.getStackTrace()[0].getMethodName().equals("throwing")) {
                System.err.println("WRONG: it was thrown in " + arrived.getStackTrace()[0]);
            }
        }
        System.err.println("== end");
    }
}
