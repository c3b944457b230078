/** A class that is loaded by a loader of its own, with a library of its own. */
public class Loaded implements java.util.function.ToIntFunction<Object> {
    static {
        System.loadLibrary("unloaded");
    }

    int number = 1;

    native int touch(Object other);

    int answer(Object other) {
        return other == null ? 0 : 40;
    }

    @Override
    public int applyAsInt(Object other) {
        return touch(other);
    }
}
