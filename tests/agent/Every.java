/** Members of each type, for each function of the table. */
public class Every {
    boolean aBoolean;
    byte aByte;
    char aChar;
    short aShort;
    int aInt;
    long aLong;
    float aFloat;
    double aDouble;
    Object aObject;
    static boolean sBoolean;
    static byte sByte;
    static char sChar;
    static short sShort;
    static int sInt;
    static long sLong;
    static float sFloat;
    static double sDouble;
    static Object sObject;

    Every() {}

    Every(int number, Object other) {
        aInt = number;
    }

    native void all();

    boolean mBoolean(boolean value, Object other) {
        return value;
    }

    static boolean cBoolean(boolean value, Object other) {
        return value;
    }

    byte mByte(byte value, Object other) {
        return value;
    }

    static byte cByte(byte value, Object other) {
        return value;
    }

    char mChar(char value, Object other) {
        return value;
    }

    static char cChar(char value, Object other) {
        return value;
    }

    short mShort(short value, Object other) {
        return value;
    }

    static short cShort(short value, Object other) {
        return value;
    }

    int mInt(int value, Object other) {
        return value;
    }

    static int cInt(int value, Object other) {
        return value;
    }

    long mLong(long value, Object other) {
        return value;
    }

    static long cLong(long value, Object other) {
        return value;
    }

    float mFloat(float value, Object other) {
        return value;
    }

    static float cFloat(float value, Object other) {
        return value;
    }

    double mDouble(double value, Object other) {
        return value;
    }

    static double cDouble(double value, Object other) {
        return value;
    }

    Object mObject(Object value, Object other) {
        return value;
    }

    static Object cObject(Object value, Object other) {
        return value;
    }

    void mVoid(Object other) {}

    static void cVoid(Object other) {}

    public static void main(String[] words) {
        System.err.println("== every");
        System.loadLibrary("every");
        new Every().all();
        System.err.println("== end");
    }
}
