import java.io.File;
import java.io.IOException;
import java.nio.charset.StandardCharsets;
import java.nio.file.Files;
import java.nio.file.Path;
import java.nio.file.Paths;
import java.util.ArrayList;
import java.util.Arrays;
import java.util.List;
import java.util.Random;
import org.cmcache.CacheException;
import org.cmcache.CacheException.Status;
import org.cmcache.ClassCache;
import org.cmcache.Pending;

/**
 * First starts that are killed at random moments, and two JVMs with one file.
 *
 * <pre>Processes FOLDER CMCACHE KILLS SEED</pre>
 */
final class Processes {
    private static final Checks CHECKS = new Checks();
    private static final int COUNT = 5000;

    private Processes() {}

    private static byte[] file(int at) {
        return Samples.padded("C" + at, at % 300);
    }

    /** A JVM that does what the words say. */
    private static ProcessBuilder builder(String... words) {
        List<String> command = new ArrayList<>(Arrays.asList(
                Paths.get(System.getProperty("java.home"), "bin", "java").toString(),
                "-Xshare:auto", "-XX:TieredStopAtLevel=1", "-XX:+UseSerialGC", "-cp",
                System.getProperty("java.class.path"), "Processes"));
        command.addAll(Arrays.asList(words));
        return new ProcessBuilder(command).redirectError(ProcessBuilder.Redirect.INHERIT);
    }

    // ---- the other JVM

    /** Stores classes, and says each number that it learns as stored. */
    private static void firstStart(Path path) throws IOException {
        try (ClassCache cache = ClassCache.open(path, ClassCache.Options.create())) {
            cache.ensureLoader("app");
            System.out.println(1);
            for (int at = 2; at <= COUNT; at++) {
                Pending pending = cache.submitDefine("app", file(at));
                if (at % 20 == 0) {
                    pending.await();
                    System.out.println(pending.number());
                }
            }
        }
    }

    private static void hold(Path path, boolean reads) throws IOException {
        try (ClassCache cache = reads ? ClassCache.openReadOnly(path) : ClassCache.open(path)) {
            System.out.println("open");
            System.in.read();
        }
    }

    // ---- this one

    /** The last number that a first start said to be stored before it was killed. */
    private static long killed(Path path, Path told, int delay) throws Exception {
        Process process = builder("start", path.toString()).redirectOutput(told.toFile()).start();
        while (Files.size(told) == 0 && process.isAlive()) {
            Thread.sleep(1);
        }
        Thread.sleep(delay);
        process.destroyForcibly().waitFor();
        String all = new String(Files.readAllBytes(told), StandardCharsets.US_ASCII);
        String[] lines = all.substring(0, all.lastIndexOf('\n') + 1).split("\n");
        return Long.parseLong(lines[lines.length - 1]);
    }

    private static void kill(Path path, String cmcache, int delay) throws Exception {
        Files.deleteIfExists(path);
        long told = killed(path, path.resolveSibling("told"), delay);
        String name = "killed after " + told;
        Process check = new ProcessBuilder(cmcache, "check", path.toString())
                .redirectOutput(new File("/dev/null")).start();
        CHECKS.equal(name + ", the file is whole", 0, check.waitFor());
        try (ClassCache cache = ClassCache.open(path)) {
            long last = cache.stats().stored();
            CHECKS.that(name + ", that is there, of " + last, told <= last);
            boolean areThere = true;
            for (int at = 2; at <= last; at++) {
                areThere &= Arrays.equals(file(at),
                        cache.find("app", "C" + at).get().classFile());
            }
            CHECKS.that(name + ", all up to " + last + " are there", areThere);
            CHECKS.that(name + ", and no other",
                    !cache.find("app", "C" + (last + 1)).isPresent());
            hits += last < COUNT ? 1 : 0;
        }
    }

    private static int hits;

    private static void shares(Path path) throws Exception {
        ClassCache.open(path, ClassCache.Options.create()).close();
        Process other = builder("hold", path.toString()).start();
        CHECKS.that("another JVM opens it", other.getInputStream().read() == 'o');
        CacheException thrown = CHECKS.threw("this one doesn't", CacheException.class,
                () -> ClassCache.open(path));
        CHECKS.that("as it is busy", thrown != null && thrown.status() == Status.BUSY);
        other.getOutputStream().close();
        CHECKS.equal("the other ends", 0, other.waitFor());
        ClassCache.open(path).close();
        CHECKS.that("then it is free", true);
        other = builder("read", path.toString()).start();
        CHECKS.that("another JVM reads it", other.getInputStream().read() == 'o');
        try (ClassCache cache = ClassCache.openReadOnly(path)) {
            CHECKS.that("and this one too", cache.loaders().isEmpty());
        }
        thrown = CHECKS.threw("but none writes", CacheException.class,
                () -> ClassCache.open(path));
        CHECKS.that("as it is busy for that", thrown != null && thrown.status() == Status.BUSY);
        other.getOutputStream().close();
        CHECKS.equal("the other reader ends", 0, other.waitFor());
    }

    public static void main(String[] words) throws Exception {
        if (words[0].equals("start")) {
            firstStart(Paths.get(words[1]));
            return;
        }
        if (words[0].equals("hold") || words[0].equals("read")) {
            hold(Paths.get(words[1]), words[0].equals("read"));
            return;
        }
        Path folder = Paths.get(words[0]);
        int kills = Integer.parseInt(words[2]);
        Random random = new Random(Long.parseLong(words[3]));
        for (int at = 0; at < kills; at++) {
            kill(folder.resolve("killed"), words[1], random.nextInt(120));
        }
        CHECKS.that("kills hit: " + hits + " of " + kills, hits * 4 > kills);
        shares(folder.resolve("shared"));
        CHECKS.finish();
    }
}
