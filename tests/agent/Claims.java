import java.awt.image.BufferedImage;
import java.io.ByteArrayInputStream;
import java.io.ByteArrayOutputStream;
import javax.imageio.ImageIO;

/** What docs/AGENT.md says of -Xcheck:jni and of the JDK's own libraries is seen by this. */
public class Claims {
    static native void region(int[] numbers, String text);

    /** Reads a picture that is cut: the JDK's library warns of it. */
    static void picture() throws Exception {
        BufferedImage image = new BufferedImage(300, 200, BufferedImage.TYPE_INT_RGB);
        for (int at = 0; at < 300 * 200; at++) {
            image.setRGB(at % 300, at / 300, at * 7919);
        }
        ByteArrayOutputStream out = new ByteArrayOutputStream();
        ImageIO.write(image, "jpg", out);
        ImageIO.read(new ByteArrayInputStream(out.toByteArray(), 0, out.size() / 2));
    }

    public static void main(String[] words) throws Exception {
        if (words[0].equals("picture")) {
            picture();
        } else {
            System.loadLibrary("claims");
            region(new int[] {1, 2, 3}, "text");
        }
        System.err.println("== end");
    }
}
