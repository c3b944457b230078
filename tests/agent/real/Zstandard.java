import com.github.luben.zstd.*;
import java.io.*;
import java.nio.ByteBuffer;
import java.util.Arrays;
import java.util.Random;

/** Compresses by libzstd-jni-java: whole arrays, streams of small pieces, dictionaries and direct buffers. */
public class Zstandard {
    static byte[] text(int size, long seed) {
        Random random = new Random(seed);
        StringBuilder text = new StringBuilder();
        while (text.length() < size) {
            text.append("word").append(random.nextInt(3000)).append(random.nextInt(9) == 0 ? ".\n" : " ");
        }
        return text.substring(0, size).getBytes();
    }

    static void same(byte[] one, byte[] other) {
        if (!Arrays.equals(one, other)) {
            System.out.println("differs");
        }
    }

    static void arrays() {
        long packed = 0;
        for (int turn = 0; turn < 200; turn++) {
            byte[] text = text(1000 + 500 * turn, turn), small = Zstd.compress(text, 1 + turn % 5);
            same(text, Zstd.decompress(small, text.length));
            packed += small.length;
        }
        System.out.println("arrays " + packed);
    }

    static void streams() throws IOException {
        long packed = 0;
        for (int turn = 0; turn < 20; turn++) {
            byte[] text = text(400000, turn);
            ByteArrayOutputStream to = new ByteArrayOutputStream();
            try (ZstdOutputStream out = new ZstdOutputStream(to, 3)) {
                for (int at = 0; at < text.length; at += 1000) {
                    out.write(text, at, 1000);
                }
            }
            try (ZstdInputStream in = new ZstdInputStream(new ByteArrayInputStream(to.toByteArray()))) {
                same(text, in.readAllBytes());
            }
            packed += to.size();
        }
        System.out.println("streams " + packed);
    }

    static void dictionary() {
        ZstdDictTrainer trainer = new ZstdDictTrainer(1 << 20, 16 << 10);
        for (int sample = 0; sample < 500; sample++) {
            trainer.addSample(text(1000, sample));
        }
        byte[] trained = trainer.trainSamples();
        long packed = 0;
        try (ZstdCompressCtx to = new ZstdCompressCtx(); ZstdDecompressCtx from = new ZstdDecompressCtx()) {
            to.loadDict(trained).setLevel(3);
            from.loadDict(trained);
            for (int turn = 0; turn < 3000; turn++) {
                byte[] text = text(300, turn), small = to.compress(text);
                same(text, from.decompress(small, text.length));
                packed += small.length;
            }
        }
        System.out.println("dictionary " + trained.length + " " + packed);
    }

    static void direct() {
        byte[] text = text(100000, 1);
        ByteBuffer from = ByteBuffer.allocateDirect(text.length), to = ByteBuffer.allocateDirect(2 * text.length);
        from.put(text).flip();
        System.out.println("direct " + Zstd.compressDirectByteBuffer(to, 0, 200000, from, 0, text.length, 3));
    }

    public static void main(String[] words) throws IOException {
        arrays();
        streams();
        dictionary();
        direct();
        try {
            Zstd.decompress(new byte[] {1, 2, 3, 4, 5}, 10);
        } catch (ZstdException isBad) {
            System.out.println("bad input: " + isBad.getMessage());
        }
    }
}
