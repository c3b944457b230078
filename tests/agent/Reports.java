/** Programs of which reports are written. */
public class Reports {
    static native void dead(String text);
    static native void again(String text);
    static native void others(String text);
    static native void leaves(Object object, int count);
    static native void leavesMany(Object object);
    static native void crashes(String text);
    static native void many(String text);
    static native void plug(String text);
    static native int forks(String text, int turns);

    public static void main(String[] words) {
        System.loadLibrary("reports");
        for (String word : words) {
            switch (word) {
                case "dead" -> dead("text");
                case "again" -> again("text");
                case "others" -> others("text");
                case "leaves" -> leaves(new Object(), 2);
                case "leavesMany" -> {
                    Object object = new Object();
                    leavesMany(object);
                    leavesMany(object);
                }
                case "crashes" -> crashes("text");
                case "many" -> many("text");
                case "plug" -> {
                    Thread.currentThread().setName("a \"thread\"\n<script>\\ é 🚀");
                    plug("text");
                }
                case "forks" -> System.out.println(forks("text", 40) + " of 40");
                default -> { }
            }
        }
        System.out.println("end");
    }
}
