/** A class that comes by a loader of its own, and goes with it. */
public class Coming implements Runnable {
    int field0;
    int field1;
    int field2;
    int field3;
    int field4;
    int field5;
    int field6;
    int field7;
    static String text0 = "a text";
    static String text1 = "a text";
    static String text2 = "a text";
    static String text3 = "a text";

    int method0(Object one, int other) {
        return other;
    }

    int method1(Object one, int other) {
        return other;
    }

    int method2(Object one, int other) {
        return other;
    }

    int method3(Object one, int other) {
        return other;
    }

    int method4(Object one, int other) {
        return other;
    }

    int method5(Object one, int other) {
        return other;
    }

    int method6(Object one, int other) {
        return other;
    }

    int method7(Object one, int other) {
        return other;
    }

    static int shared0(Object one) {
        return 0;
    }

    static int shared1(Object one) {
        return 1;
    }

    static int shared2(Object one) {
        return 2;
    }

    static int shared3(Object one) {
        return 3;
    }

    native int native0(Object one);
    native int native1(Object one);
    native int native2(Object one);
    native int native3(Object one);
    native int native4(Object one);
    native int native5(Object one);
    native int native6(Object one);
    native int native7(Object one);

    @Override
    public void run() {
        int sum = 0;
        sum += native0(this);
        sum += native1(this);
        sum += native2(this);
        sum += native3(this);
        sum += native4(this);
        sum += native5(this);
        sum += native6(this);
        sum += native7(this);
        if (sum != 8 * 7) {
            System.err.println("WRONG: " + sum);
        }
    }
}
