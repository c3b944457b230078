import java.awt.image.BufferedImage;
import java.util.Arrays;
import org.libjpegturbo.turbojpeg.*;

/** Pictures by libturbojpeg-java: critical regions, a callback from C, several threads. */
public class Jpeg {
    static final int WIDTH = 160, HEIGHT = 120;

    static byte[] picture(int seed) {
        byte[] items = new byte[WIDTH * HEIGHT * 3];
        for (int at = 0; at < items.length; at++) {
            int x = at / 3 % WIDTH, y = at / 3 / WIDTH;
            items[at] = (byte) (at % 3 == 0 ? x : at % 3 == 1 ? y : seed);
        }
        return items;
    }

    static byte[] compressed(byte[] items) throws Exception {
        try (TJCompressor by = new TJCompressor(items, 0, 0, WIDTH, 0, HEIGHT, TJ.PF_RGB)) {
            by.setSubsamp(TJ.SAMP_420);
            by.setJPEGQuality(90);
            return Arrays.copyOf(by.compress(0), by.getCompressedSize());
        }
    }

    /** How far the picture is from what came of it, in the mean. */
    static long difference(byte[] items, byte[] picture) throws Exception {
        try (TJDecompressor by = new TJDecompressor(picture)) {
            byte[] again = by.decompress(WIDTH, 0, HEIGHT, TJ.PF_RGB, 0);
            long sum = 0;
            for (int at = 0; at < items.length; at++) {
                sum += Math.abs((items[at] & 255) - (again[at] & 255));
            }
            return sum / items.length;
        }
    }

    static void planes(byte[] picture) throws Exception {
        try (TJDecompressor by = new TJDecompressor(picture); TJCompressor to = new TJCompressor()) {
            YUVImage image = by.decompressToYUV(WIDTH, new int[] {WIDTH, WIDTH / 2, WIDTH / 2}, HEIGHT, 0);
            to.setSourceImage(image);
            to.setJPEGQuality(75);
            System.out.println("planes " + Arrays.hashCode(Arrays.copyOf(to.compress(0), to.getCompressedSize())));
            BufferedImage drawn = by.decompress(WIDTH / 2, HEIGHT / 2, BufferedImage.TYPE_INT_RGB, 0);
            try (TJCompressor of = new TJCompressor(drawn, 0, 0, 0, 0)) {
                of.setSubsamp(TJ.SAMP_444);
                of.setJPEGQuality(80);
                of.compress(0);
                System.out.println("image " + drawn.getWidth() + " " + of.getCompressedSize());
            }
        }
    }

    /** Turned by 90 degrees, with coefficients that a callback changes. */
    static void turned(byte[] picture) throws Exception {
        int[] blocks = new int[1];
        TJTransform turn = new TJTransform(0, 0, 0, 0, TJTransform.OP_ROT90, TJTransform.OPT_TRIM,
            (coefficients, region, plane, componentID, transformID, transform) -> {
                blocks[0]++;
                coefficients.put(0, (short) -coefficients.get(0));
            });
        try (TJTransformer by = new TJTransformer(picture)) {
            TJDecompressor[] made = by.transform(new TJTransform[] {turn}, 0);
            System.out.println("turned " + made[0].getWidth() + " " + made[0].getHeight() + " " + (blocks[0] > 10));
        }
    }

    public static void main(String[] words) throws Exception {
        byte[] items = picture(7), picture = compressed(items);
        System.out.println(picture.length + " " + difference(items, picture));
        planes(picture);
        turned(picture);
        long[] sums = new long[4];
        Thread[] threads = new Thread[sums.length];
        for (int at = 0; at < threads.length; at++) {
            int which = at;
            threads[at] = new Thread(() -> {
                try {
                    for (int turn = 0; turn < 20; turn++) {
                        byte[] own = picture(which * 20 + turn);
                        sums[which] += difference(own, compressed(own));
                    }
                } catch (Exception unexpected) {
                    throw new IllegalStateException(unexpected);
                }
            });
            threads[at].start();
        }
        for (Thread thread : threads) {
            thread.join();
        }
        System.out.println(Arrays.toString(sums));
        try (TJDecompressor by = new TJDecompressor(new byte[100])) {
            System.out.println("WRONG");
        } catch (TJException isNone) {
            System.out.println(isNone.getMessage());
        }
    }
}
