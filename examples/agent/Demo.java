/** Three mistakes of native code, each in a method of its own. */
public class Demo {
    static native int deadLocal();

    static native void unchecked();

    static native int inCritical(int[] items);

    static void fails() {
        throw new IllegalStateException("nobody asks for it");
    }

    public static void main(String[] words) {
        System.loadLibrary("demo");
        System.out.println("a string that was deleted is " + deadLocal() + " long");
        try {
            unchecked();
        } catch (IllegalStateException thrown) {
            System.out.println("Java got what native code didn't ask for: " + thrown.getMessage());
        }
        System.out.println("an array is " + inCritical(new int[3]) + " long");
    }
}
