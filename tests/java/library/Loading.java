import java.io.IOException;
import java.io.InputStream;
import java.net.URL;
import java.net.URLClassLoader;
import java.nio.file.Files;
import java.nio.file.Path;
import java.nio.file.Paths;
import java.util.ArrayList;
import java.util.Arrays;
import java.util.List;
import java.util.Map;
import java.util.jar.JarOutputStream;
import java.util.zip.ZipEntry;
import org.cmcache.CachingClassLoader;
import org.cmcache.ClassCache;

/**
 * Classes that a CachingClassLoader defines are those of a URLClassLoader, whatever the cache has.
 *
 * <pre>Loading FOLDER PATH..</pre>
 */
final class Loading {
    private static final Checks CHECKS = new Checks();
    private static final int PUBLIC = 0x21;
    private static final int FINAL = 0x31;

    private static Path folder;

    private Loading() {}

    private static byte[] file(String name, int flags) {
        return new Samples.Builder(name).flags(flags).bytes();
    }

    /** A new jar of entries in pairs: a path, and a text or bytes. */
    private static URL jar(String name, Object... entries) throws IOException {
        Path path = folder.resolve(name);
        try (JarOutputStream jar = new JarOutputStream(Files.newOutputStream(path))) {
            for (int at = 0; at < entries.length; at += 2) {
                jar.putNextEntry(new ZipEntry((String) entries[at]));
                jar.write(entries[at + 1] instanceof byte[] ? (byte[]) entries[at + 1]
                        : Samples.ascii((String) entries[at + 1]));
                jar.closeEntry();
            }
        }
        return path.toUri().toURL();
    }

    /** What a program can see of a class, or why there is none. */
    private static String seen(ClassLoader loader, String name) {
        try {
            Class<?> type = Class.forName(name, false, loader);
            Package in = type.getPackage();
            return type.getName() + " " + type.getModifiers() + " "
                    + type.getProtectionDomain().getCodeSource().getLocation() + " "
                    + (in == null ? "none" : in.getName() + " " + in.getImplementationVersion()
                            + " " + in.isSealed())
                    + " " + (type.getClassLoader() == loader);
        } catch (ClassNotFoundException | LinkageError | SecurityException e) {
            return e.getClass() + " " + e.getMessage();
        }
    }

    private static CachingClassLoader caching(ClassCache cache, URL... urls) {
        return new CachingClassLoader(cache, "app", urls, null);
    }

    /** Loads these classes by both kinds of loaders; the caching one took so many from each. */
    private static void same(String name, ClassCache cache, int fromCache, int submitted,
            List<String> classes, URL... urls) throws IOException {
        try (URLClassLoader plain = new URLClassLoader(urls, null);
                CachingClassLoader caching = caching(cache, urls)) {
            for (String each : classes) {
                CHECKS.equal(name + ", " + each, seen(plain, each), seen(caching, each));
            }
            CHECKS.equal(name + ", from the cache", fromCache, caching.fromCache());
            CHECKS.equal(name + ", submitted", submitted, caching.submitted());
        }
    }

    private static ClassCache fresh(String name) throws IOException {
        return ClassCache.open(folder.resolve(name), ClassCache.Options.create());
    }

    private static void loads() throws Exception {
        URL jar = jar("plain.jar", "META-INF/MANIFEST.MF",
                "Manifest-Version: 1.0\nImplementation-Version: 7\n\n", "p/A.class",
                file("p/A", PUBLIC), "p/B.class", file("p/B", PUBLIC), "C.class",
                file("C", FINAL), "p/text", "a text", "p/Broken.class", "no class");
        List<String> all = Arrays.asList("p.A", "p.B", "C", "p.None", "p.A");
        try (ClassCache cache = fresh("plain")) {
            same("first", cache, 0, 3, all, jar);
            same("second", cache, 3, 0, all, jar);
            same("a broken class", cache, 0, 0, Arrays.asList("p.Broken"), jar);
            try (CachingClassLoader caching = caching(cache, jar);
                    InputStream text = caching.getResourceAsStream("p/text")) {
                CHECKS.that("a resource", text.read() == 'a');
            }
        }
        try (ClassCache cache = ClassCache.open(folder.resolve("plain"))) {
            same("another start", cache, 3, 0, all, jar);
            URL newer = jar("plain.jar", "p/A.class", file("p/A", FINAL), "p/B.class",
                    file("p/B", PUBLIC));
            same("a jar that changed", cache, 1, 0, all, newer);
            URL other = jar("other.jar", "p/B.class", file("p/B", FINAL), "q/D.class",
                    file("q/D", PUBLIC));
            same("another jar first", cache, 0, 1, Arrays.asList("p.A", "p.B", "q.D"), other,
                    newer);
        }
    }

    private static void leavesTheCache() throws Exception {
        byte[] plain = file("p/A", PUBLIC);
        List<String> one = Arrays.asList("p.A");
        URL sealed = jar("sealed.jar", "META-INF/MANIFEST.MF",
                "Manifest-Version: 1.0\nSealed: true\n\n", "p/A.class", plain);
        URL unsealed = jar("unsealed.jar", "p/B.class", file("p/B", PUBLIC));
        URL signed = jar("signed.jar", "META-INF/MANIFEST.MF",
                "Manifest-Version: 1.0\n\nName: p/A.class\nSHA-256-Digest: AAAA\n\n", "p/A.class",
                plain);
        URL versions = jar("versions.jar", "META-INF/MANIFEST.MF",
                "Manifest-Version: 1.0\nMulti-Release: true\n\n", "p/A.class", plain,
                "META-INF/versions/9/p/A.class", file("p/A", FINAL));
        Path classes = Files.createDirectories(folder.resolve("folder/p")).getParent();
        Files.write(classes.resolve("p/A.class"), plain);
        try (ClassCache cache = fresh("left")) {
            same("a sealed jar", cache, 0, 0, Arrays.asList("p.A", "p.B"), sealed, unsealed);
            same("a signed jar", cache, 0, 0, one, signed);
            same("a folder", cache, 0, 0, one, classes.toUri().toURL());
            same("no such jar", cache, 0, 0, one, folder.resolve("no.jar").toUri().toURL());
            boolean hasVersions = !System.getProperty("java.version").startsWith("1.");
            same("several versions", cache, 0, hasVersions ? 0 : 1, one, versions);
        }
    }

    private static void doesWithoutTheCache() throws Exception {
        URL jar = jar("alone.jar", "p/A.class", file("p/A", PUBLIC));
        ClassCache closed = fresh("gone");
        closed.close();
        same("a closed cache", closed, 0, 0, Arrays.asList("p.A"), jar);
        CHECKS.threw("no cache", NullPointerException.class,
                () -> new CachingClassLoader(null, "app", new URL[0], null));
        try (ClassCache cache = fresh("names")) {
            CHECKS.threw("no name", NullPointerException.class,
                    () -> new CachingClassLoader(cache, null, new URL[0], null));
            try (CachingClassLoader caching = new CachingClassLoader(cache, "a b",
                    new URL[] {jar}, null)) {
                CHECKS.that("a bad name", seen(caching, "p.A").startsWith("p.A "));
                CHECKS.equal("nothing is submitted", 0, caching.submitted());
            }
        }
        fresh("read").close();
        try (ClassCache cache = ClassCache.openReadOnly(folder.resolve("read"))) {
            same("a cache that is only read", cache, 0, 0, Arrays.asList("p.A"), jar);
        }
        ClassCache full = ClassCache.open(folder.resolve("full"),
                ClassCache.Options.create().roots(3, 1).slots(256));
        full.addLoader("app");
        full.define("app", Samples.padded("Filler", 8000));
        same("a full cache", full, 0, 0, Arrays.asList("p.A"), jar);
        full.close();
    }

    /** All classes of the paths, by sixteen threads at once. */
    private static void loadsAll(List<String> paths) throws Exception {
        Map<String, byte[]> classes = Classes.in(paths);
        List<Object> entries = new ArrayList<>();
        List<String> names = new ArrayList<>();
        classes.forEach((name, file) -> {
            entries.addAll(Arrays.asList(name + ".class", file));
            names.add(name.replace('/', '.'));
        });
        URL jar = jar("all.jar", entries.toArray());
        try (ClassCache cache = fresh("all");
                CachingClassLoader first = caching(cache, jar);
                CachingClassLoader second = caching(cache, jar)) {
            loadAtOnce(first, names);
            CHECKS.equal("submitted", names.size(), first.submitted());
            loadAtOnce(second, names);
            CHECKS.equal("from the cache", names.size(), second.fromCache());
            CHECKS.that("there are classes", names.size() > 10);
        }
    }

    private static void loadAtOnce(ClassLoader loader, List<String> names) throws Exception {
        List<Thread> threads = new ArrayList<>();
        for (int at = 0; at < 16; at++) {
            Thread thread = new Thread(() -> names.forEach(name -> {
                String found = seen(loader, name);
                CHECKS.that(name + ": " + found, found.startsWith(name + " "));
            }));
            threads.add(thread);
            thread.start();
        }
        for (Thread thread : threads) {
            thread.join();
        }
    }

    public static void main(String[] words) throws Exception {
        folder = Paths.get(words[0]);
        loads();
        leavesTheCache();
        doesWithoutTheCache();
        loadsAll(Arrays.asList(words).subList(1, words.length));
        CHECKS.finish();
    }
}
