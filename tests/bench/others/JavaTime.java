import java.time.Instant;
import java.time.ZoneId;

/**
 * ROUNDS QUESTIONS ZONE...: asks java.time for the offsets of the zones in turn. Prints their sum in seconds, and the least time of a question
 * in ns.
 */
class JavaTime {
    public static void main(String[] words) {
        int rounds = Integer.parseInt(words[0]), questions = Integer.parseInt(words[1]), zones = words.length - 2;
        double least = Double.MAX_VALUE;
        long sum = 0;
        for (int round = 0; round < rounds; round++) {
            long start = System.nanoTime();
            sum = 0;
            for (int i = 0; i < questions; i++) {
                Instant instant = Instant.ofEpochSecond(1_700_000L * i);
                sum += ZoneId.of(words[2 + i % zones]).getRules().getOffset(instant).getTotalSeconds();
            }
            least = Math.min(least, (System.nanoTime() - start) / (double) questions);
        }
        System.out.println(sum + " " + least);
    }
}
