import java.nio.file.Files;
import java.nio.file.Path;
import java.nio.file.Paths;
import java.util.Arrays;
import java.util.Collections;
import org.cmcache.CacheException;
import org.cmcache.CacheException.Status;
import org.cmcache.ClassCache;
import org.cmcache.Pending;

/**
 * The library's allocations refused one after another (tests/java/refusing.c): each call is done,
 * or throws an OutOfMemoryError and changes nothing, or the thread that stores has failed.
 */
final class Refusals {
    private static final Checks CHECKS = new Checks();
    private static final ClassCache.Options SMALL =
            ClassCache.Options.create().roots(3, 64).slots(256);
    private static final byte[] FILE = Samples.padded("A", 300);
    private static final String LONG_NAME =
            String.join("", Collections.nCopies(500, "n"));

    private static int done;

    private Refusals() {}

    static native void refuse(long which);

    static native long refused();

    /** Each call in turn; how many of them are done is kept in {@code done}. */
    private static void use(Path path) throws CacheException {
        try (ClassCache cache = ClassCache.open(path, SMALL)) {
            done = 1;
            cache.addLoader("app");
            done = 2;
            cache.define("app", FILE);
            done = 3;
            Pending pending = cache.submitDefine("app", Samples.named("B"));
            pending.await();
            done = 4;
            CHECKS.that("found", Arrays.equals(FILE, cache.find("app", "A").get().classFile()));
            CHECKS.that("none", !cache.find("app", LONG_NAME).isPresent());
            cache.ensureLoader("ext");
            done = 5;
            cache.unloadAll(Arrays.asList("app", "ext"));
            done = 6;
        }
        done = 7;
    }

    /** Whether a failure is one that a refusal may have. */
    private static boolean isExpected(CacheException e) {
        return e.status() == Status.UNSURE || e.status() == Status.BROKEN
                || e.status() == Status.DEVICE;
    }

    /** What is in the file is what was done, or that and the call that failed. */
    private static void check(Path path, long which) throws CacheException {
        if (done == 0 && !Files.exists(path)) {
            return;
        }
        try (ClassCache cache = ClassCache.open(path)) {
            long stored = cache.stats().stored();
            long least = done >= 6 ? 5 : Math.max(0, done - 1);
            CHECKS.that("refusal " + which + ": " + done + " calls are done, and " + stored
                    + " commands stored", stored >= least && stored <= least + 1);
            boolean hasClass = stored >= 2 && stored < 5;
            CHECKS.equal("refusal " + which + ": the class is there", hasClass,
                    cache.find("app", "A").isPresent());
        }
    }

    public static void main(String[] words) throws Exception {
        Path path = Paths.get(words[0], "cache");
        ClassCache.open(path, SMALL).close(); // loads the library
        int memory = 0;
        long which = 0;
        long count;
        do {
            which++;
            Files.deleteIfExists(path);
            done = 0;
            refuse(which);
            try {
                use(path);
            } catch (OutOfMemoryError e) {
                memory++;
            } catch (CacheException e) {
                CHECKS.that("refusal " + which + ": " + e, isExpected(e));
            }
            refuse(0);
            count = refused();
            check(path, which);
        } while (count > 0);
        CHECKS.equal("without a refusal all is done", 7, done);
        CHECKS.that("refusals: " + which + ", of these " + memory + " for Java",
                memory > 10 && which > 20);
        CHECKS.finish();
    }
}
