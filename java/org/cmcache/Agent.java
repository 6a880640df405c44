package org.cmcache;

import java.io.IOException;
import java.io.PrintStream;
import java.lang.instrument.ClassFileTransformer;
import java.lang.instrument.Instrumentation;
import java.nio.file.InvalidPathException;
import java.nio.file.Paths;
import java.security.ProtectionDomain;
import java.util.Arrays;
import java.util.Optional;
import java.util.concurrent.atomic.AtomicIntegerArray;

/**
 * The agent, which fills a cache with the classes that an application loads:
 *
 * <pre>java -javaagent:cmcache.jar=FILE[,LOADER] ..</pre>
 *
 * <p>It stores each class file of version 52.0 that a class loader of the application defines, in
 * the cache of that file, which is made if it isn't there, as a class of LOADER ({@code app}). It
 * changes no class. As the application ends it says on standard error how many classes it stored,
 * how many were there, how many were there with other bytes (changed), were of other versions, and
 * were refused. If the file can't be opened, the application starts as it would without the agent,
 * and one line says why.
 *
 * <p>A class that another agent changes first is stored as that one left it: name this agent first.
 */
public final class Agent implements ClassFileTransformer {
    private static final String DEFAULT_LOADER = "app";
    private static final String OWN_CLASSES = "org/cmcache/";

    private final ClassCache cache;
    private final String loader;
    private final ClassLoader ofPlatform = ClassLoader.getSystemClassLoader().getParent();
    private final PrintStream errors = System.err; // the application may set another one
    private final AtomicIntegerArray counts = new AtomicIntegerArray(Outcome.values().length);

    /** What became of a class. */
    private enum Outcome { STORED, THERE, CHANGED, OTHER_VERSION, REFUSED }

    private Agent(ClassCache cache, String loader) {
        this.cache = cache;
        this.loader = loader;
    }

    /**
     * Starts the agent, before the application starts.
     *
     * @param words {@code FILE} or {@code FILE,LOADER}; the last comma ends FILE
     * @param instrumentation what the JVM gives an agent
     */
    public static void premain(String words, Instrumentation instrumentation) {
        if (words == null || words.isEmpty()) {
            System.err.println("cmcache: -javaagent:cmcache.jar=FILE[,LOADER] names no file;"
                    + " nothing is stored");
            return;
        }
        int comma = words.lastIndexOf(',');
        try {
            start(comma < 0 ? words : words.substring(0, comma),
                    comma < 0 ? DEFAULT_LOADER : words.substring(comma + 1), instrumentation);
        } catch (IOException | InvalidPathException | LinkageError | OutOfMemoryError e) {
            System.err.println("cmcache: " + e.getMessage() + "; nothing is stored");
        }
    }

    private static void start(String file, String loader, Instrumentation instrumentation)
            throws IOException {
        ClassCache cache = ClassCache.open(Paths.get(file), ClassCache.Options.create());
        try {
            cache.ensureLoader(loader);
        } catch (CacheException e) {
            cache.close();
            throw e;
        }
        Agent agent = new Agent(cache, loader);
        Runtime.getRuntime().addShutdownHook(new Thread(agent::finish, "cmcache"));
        instrumentation.addTransformer(agent);
    }

    @Override
    public byte[] transform(ClassLoader definer, String name, Class<?> redefined,
            ProtectionDomain domain, byte[] file) {
        boolean isOfApplication = definer != null && definer != ofPlatform;
        if (isOfApplication && redefined == null && name != null
                && !name.startsWith(OWN_CLASSES)) {
            try {
                counts.incrementAndGet(store(name, file).ordinal());
            } catch (IllegalStateException e) {
                // The application ends, and the cache is closed.
            }
        }
        return null;
    }

    private Outcome store(String name, byte[] file) {
        if (!ClassCache.isOfVersion52(file)) {
            return Outcome.OTHER_VERSION;
        }
        Optional<ClassRecord> found = cache.find(loader, name);
        if (found.isPresent()) {
            boolean isSame = Arrays.equals(file, found.get().classFile());
            return isSame ? Outcome.THERE : Outcome.CHANGED;
        }
        try {
            cache.submitDefine(loader, file);
            return Outcome.STORED;
        } catch (CacheException e) {
            return e.status() == CacheException.Status.CLASS_EXISTS ? Outcome.THERE
                    : Outcome.REFUSED;
        }
    }

    private void finish() {
        String failed = "";
        try {
            cache.close();
        } catch (CacheException e) {
            failed = "; " + e.getMessage();
        }
        errors.println("cmcache: " + cache.path() + ", loader " + loader + ": stored "
                + count(Outcome.STORED) + ", there " + count(Outcome.THERE) + ", changed "
                + count(Outcome.CHANGED) + ", of other versions " + count(Outcome.OTHER_VERSION)
                + ", refused " + count(Outcome.REFUSED) + failed);
    }

    private int count(Outcome outcome) {
        return counts.get(outcome.ordinal());
    }
}
