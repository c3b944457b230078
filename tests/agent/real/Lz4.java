import java.nio.ByteBuffer;
import java.util.Arrays;
import net.jpountz.lz4.*;
import net.jpountz.xxhash.*;

/** Compresses and hashes by liblz4-java: critical arrays and direct buffers. */
public class Lz4 {
    public static void main(String[] words) {
        LZ4Factory factory = LZ4Factory.nativeInstance();
        byte[] text = "a text that comes again, and again, and again. ".repeat(200).getBytes();
        for (int turn = 0; turn < 20; turn++) {
            byte[] packed = factory.fastCompressor().compress(text);
            byte[] small = factory.highCompressor().compress(text);
            byte[] back = factory.fastDecompressor().decompress(packed, text.length);
            byte[] safe = factory.safeDecompressor().decompress(small, text.length);
            if (!Arrays.equals(text, back) || !Arrays.equals(text, safe)) {
                System.out.println("differs");
            }
            if (turn == 0) {
                System.out.println(packed.length + " " + small.length);
            }
        }
        ByteBuffer from = ByteBuffer.allocateDirect(text.length), to = ByteBuffer.allocateDirect(2 * text.length);
        from.put(text).flip();
        factory.fastCompressor().compress(from, to);
        System.out.println(to.position());
        XXHash32 hash = XXHashFactory.nativeInstance().hash32();
        System.out.println(hash.hash(text, 0, text.length, 7));
        try (StreamingXXHash64 stream = XXHashFactory.nativeInstance().newStreamingHash64(3)) {
            stream.update(text, 0, text.length);
            System.out.println(stream.getValue());
        }
        try {
            factory.safeDecompressor().decompress(new byte[] {1, 2, 3}, 10);
        } catch (LZ4Exception isBad) {
            System.out.println("bad input");
        }
    }
}
