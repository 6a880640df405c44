import java.nio.file.Path;
import java.nio.file.Paths;
import java.util.ArrayList;
import java.util.Arrays;
import java.util.HashSet;
import java.util.List;
import java.util.Optional;
import java.util.Set;
import java.util.concurrent.CountDownLatch;
import java.util.concurrent.atomic.AtomicInteger;
import org.cmcache.ClassCache;
import org.cmcache.ClassRecord;
import org.cmcache.Pending;

/** Sixteen threads with one cache, caches that are closed meanwhile, and little stack. */
final class Threads {
    private static final int THREADS = 16;
    private static final int CLASSES = 50;
    private static final Checks CHECKS = new Checks();

    private Threads() {}

    /** What a thread does; it is given its number. */
    private interface Work {
        void run(int thread) throws Exception;
    }

    private static void together(String name, Work work) throws InterruptedException {
        CountDownLatch begin = new CountDownLatch(1);
        List<Thread> threads = new ArrayList<>();
        for (int at = 0; at < THREADS; at++) {
            int number = at;
            Thread thread = new Thread(() -> {
                boolean isDone = false;
                try {
                    begin.await();
                    work.run(number);
                    isDone = true;
                } catch (Throwable e) {
                    e.printStackTrace(System.out);
                }
                CHECKS.that(name + ", thread " + number, isDone);
            });
            threads.add(thread);
            thread.start();
        }
        begin.countDown();
        for (Thread thread : threads) {
            thread.join();
        }
    }

    private static boolean isClass(Optional<ClassRecord> found, byte[] file) {
        return found.isPresent() && Arrays.equals(file, found.get().classFile());
    }

    /** Each thread defines in a loader of its own, and finds what it and the others defined. */
    private static void define(ClassCache cache, Set<Long> numbers, int thread) throws Exception {
        String loader = "loader" + thread;
        List<Long> own = new ArrayList<>();
        own.add(cache.addLoader(loader));
        Pending last = null;
        for (int at = 0; at < CLASSES; at++) {
            byte[] file = Samples.padded("C" + at, 10 * thread);
            if (at % 2 == 0) {
                own.add(cache.define(loader, file));
            } else {
                last = cache.submitDefine(loader, file);
                own.add(last.number());
            }
            CHECKS.that("found", isClass(cache.find(loader, "C" + at), file));
            int other = (thread + at) % THREADS;
            cache.find("loader" + other, "C" + at).ifPresent(record -> CHECKS.equal("another's",
                    10 * other, record.attribute("X").get().length()));
        }
        last.await();
        CHECKS.that("stored", cache.stats().stored() >= last.number());
        List<Long> sorted = new ArrayList<>(own);
        sorted.sort(null);
        CHECKS.equal("numbers rise", sorted, own);
        synchronized (numbers) {
            numbers.addAll(own);
        }
    }

    private static void serves(Path path) throws Exception {
        Set<Long> numbers = new HashSet<>();
        long count = THREADS * (CLASSES + 1);
        try (ClassCache cache = ClassCache.open(path, ClassCache.Options.create())) {
            together("defines", thread -> define(cache, numbers, thread));
            CHECKS.equal("the last number", count, cache.stats().stored());
        }
        CHECKS.that("each number once", numbers.size() == count && numbers.contains(1L)
                && numbers.contains(count));
        try (ClassCache cache = ClassCache.open(path)) {
            together("finds", thread -> {
                for (int at = 0; at < CLASSES; at++) {
                    CHECKS.that("found again", isClass(cache.find("loader" + thread, "C" + at),
                            Samples.padded("C" + at, 10 * thread)));
                }
            });
        }
    }

    /** One thread closes while fifteen look up, define and wait: each call is done or refused. */
    private static void closes(Path path) throws Exception {
        AtomicInteger refused = new AtomicInteger();
        for (int round = 0; round < 20; round++) {
            ClassCache cache = ClassCache.open(path, ClassCache.Options.create());
            int begin = round * 1000;
            cache.ensureLoader("app");
            together("round " + round, thread -> {
                if (thread == 0) {
                    Thread.sleep(begin / 1000);
                    cache.close();
                    cache.close();
                    return;
                }
                try {
                    for (int at = 0; at < 1_000_000; at++) {
                        call(cache, thread, begin + at);
                    }
                } catch (IllegalStateException e) {
                    refused.incrementAndGet();
                }
            });
        }
        CHECKS.equal("all were refused in the end", 20 * (THREADS - 1), refused.get());
    }

    private static void call(ClassCache cache, int thread, int at) throws Exception {
        switch (thread % 4) {
            case 0:
                cache.find("app", "none");
                cache.stats();
                break;
            case 1:
                Pending pending = cache.submitDefine("app", Samples.named("S" + thread + "_" + at));
                pending.await();
                CHECKS.that("is stored", pending.isStored());
                break;
            case 2:
                cache.define("app", Samples.named("D" + thread + "_" + at));
                break;
            default:
                cache.find("app", "D2_" + at).ifPresent(ClassRecord::classFile);
        }
    }

    /** Calls at any depth of a thread's stack, down to where Java refuses to go on. */
    private static void dives(Path path) throws Exception {
        byte[] file = Samples.padded("Deep", 100);
        try (ClassCache cache = ClassCache.open(path, ClassCache.Options.create())) {
            cache.ensureLoader("deep");
            cache.define("deep", file);
            AtomicInteger calls = new AtomicInteger();
            Thread diver = new Thread(null, () -> dive(cache, file, calls), "diver", 1 << 18);
            diver.start();
            diver.join();
            CHECKS.that("calls on a small stack: " + calls, calls.get() > 10);
            CHECKS.that("and afterwards", isClass(cache.find("deep", "Deep"), file));
        }
    }

    private static void dive(ClassCache cache, byte[] file, AtomicInteger calls) {
        try {
            cache.find("deep", "Deep").get().methods();
            cache.define("deep", file);
        } catch (java.io.IOException e) {
            calls.incrementAndGet();
        } catch (StackOverflowError e) {
            return;
        }
        try {
            dive(cache, file, calls);
        } catch (StackOverflowError e) {
            // The end of the stack.
        }
    }

    public static void main(String[] words) throws Exception {
        serves(Paths.get(words[0], "served"));
        closes(Paths.get(words[0], "closing"));
        dives(Paths.get(words[0], "deep"));
        CHECKS.finish();
    }
}
