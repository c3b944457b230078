/** Plays scripts: a file of them, where the answers go, and the record that the agent writes, or "" for none. */
public class Scripted {
    static native void play(String scripts, String answers, String record);

    public static void main(String[] words) {
        Thread.setDefaultUncaughtExceptionHandler((thread, thrown) -> {});
        System.loadLibrary("watching");
        play(words[0], words[1], words[2]);
        System.err.println("== end");
    }
}
