import java.io.IOException;
import java.math.BigInteger;
import java.nio.ByteBuffer;
import java.nio.ByteOrder;
import java.nio.channels.FileChannel;
import java.nio.file.Path;

/**
 * Answers queries as `fmem stream` does, in Java, over orders of 24 bytes as `queries` reads them: one chunk of whole
 * records in memory, of at most 1 MiB. `Streams QUERY FILE` has a loop for each of the benchmark's queries, and knows no
 * other.
 */
final class Streams {
    private static final int SIZE = 24;
    private static final int CHUNK = 1_048_576 / SIZE * SIZE;
    private static final int KIND = 4;
    private static final int PRICE = 8;

    private final ByteBuffer chunk = ByteBuffer.allocateDirect(CHUNK).order(ByteOrder.LITTLE_ENDIAN);
    private long count;
    private BigInteger prices = BigInteger.ZERO;
    private long least = Long.MAX_VALUE;
    private int most = Integer.MIN_VALUE;

    /** Reads the next chunk, which only the file's end makes shorter; whether there is one. */
    private boolean fill(FileChannel file) throws IOException {
        chunk.clear();
        while (chunk.hasRemaining() && file.read(chunk) >= 0) { }
        chunk.flip();
        if (chunk.limit() % SIZE != 0) {
            throw new IOException("ragged");
        }
        return chunk.hasRemaining();
    }

    /** Adds the exact sum of a chunk's longs, given as the sums of their halves, which 64 bits hold. */
    private void addPrices(long high, long low) {
        prices = prices.add(BigInteger.valueOf(high).shiftLeft(32)).add(BigInteger.valueOf(low));
    }

    private void one() {
        long high = 0;
        long low = 0;
        for (int at = PRICE; at < chunk.limit(); at += SIZE) {
            long price = chunk.getLong(at);
            high += price >> 32;
            low += price & 0xffff_ffffL;
        }
        addPrices(high, low);
    }

    private void four() {
        long high = 0;
        long low = 0;
        for (int at = 0; at < chunk.limit(); at += SIZE) {
            if (chunk.getShort(at + KIND) < 2) {
                continue;
            }
            long price = chunk.getLong(at + PRICE);
            count++;
            high += price >> 32;
            low += price & 0xffff_ffffL;
            least = Math.min(least, price);
            most = Math.max(most, chunk.getInt(at));
        }
        addPrices(high, low);
    }

    private String answer(String query, FileChannel file) throws IOException {
        switch (query) {
            case "count" -> {
                while (fill(file)) {
                    count += chunk.limit() / SIZE;
                }
                return "count " + count;
            }
            case "sum(.price)" -> {
                while (fill(file)) {
                    one();
                }
                return "sum(.price) " + prices;
            }
            case "count,sum(.price),min(.price),max(.id) where .kind>=2" -> {
                while (fill(file)) {
                    four();
                }
                String ends = count == 0 ? "min(.price) none\nmax(.id) none" : "min(.price) " + least + "\nmax(.id) " + most;
                return "count " + count + "\nsum(.price) " + prices + "\n" + ends;
            }
            default -> throw new IllegalArgumentException(query);
        }
    }

    public static void main(String[] words) throws IOException {
        try (FileChannel file = FileChannel.open(Path.of(words[1]))) {
            System.out.println(new Streams().answer(words[0], file));
        }
    }
}
