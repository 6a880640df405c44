package org.cmcache;

import java.io.DataInputStream;
import java.io.IOException;
import java.io.InputStream;
import java.io.UncheckedIOException;
import java.net.JarURLConnection;
import java.net.URL;
import java.net.URLClassLoader;
import java.security.CodeSigner;
import java.security.CodeSource;
import java.util.Objects;
import java.util.Optional;
import java.util.Set;
import java.util.concurrent.ConcurrentHashMap;
import java.util.concurrent.ConcurrentMap;
import java.util.concurrent.atomic.AtomicInteger;
import java.util.jar.Attributes;
import java.util.jar.JarEntry;
import java.util.jar.JarFile;
import java.util.jar.Manifest;
import java.util.zip.CRC32;

/**
 * A class loader that takes the bytes of its jars' classes from a cache, and submits those that
 * aren't there. Each class is the one that a {@link URLClassLoader} of the same URLs would define:
 * a record is used only if its class file has the length and the CRC-32 that the jar's directory
 * gives for the entry. So with a jar that has changed, its changed classes come from the jar.
 *
 * <p>The loader in the cache has a name of the caller's choice. A name with a tag of today's jars
 * begins anew when they change; otherwise records of old classes stay, and are of no use.
 *
 * <p>Classes in folders, in signed or sealed jars, and those that a multi-release jar has for newer
 * versions of Java are loaded as by a {@code URLClassLoader}, without the cache. So is each class
 * if the cache fails or is closed. The caller closes the cache; {@link #close} doesn't.
 */
public class CachingClassLoader extends URLClassLoader {
    static {
        registerAsParallelCapable();
    }

    private final ClassCache cache;
    private final String loader;
    private final ConcurrentMap<String, Jar> jars = new ConcurrentHashMap<>();
    private final Set<String> packages = ConcurrentHashMap.newKeySet();
    private final AtomicInteger fromCache = new AtomicInteger();
    private final AtomicInteger submitted = new AtomicInteger();

    /**
     * A loader for these URLs.
     *
     * @param cache the cache
     * @param loader the name of the loader in the cache, which is added with its first class
     * @param urls where classes and resources are, as for {@link URLClassLoader}
     * @param parent the parent
     */
    public CachingClassLoader(ClassCache cache, String loader, URL[] urls, ClassLoader parent) {
        super(urls, parent);
        this.cache = Objects.requireNonNull(cache, "cache");
        this.loader = Objects.requireNonNull(loader, "loader");
    }

    /**
     * How many classes it has defined by the cache's bytes.
     *
     * @return their count at this moment
     */
    public int fromCache() {
        return fromCache.get();
    }

    /**
     * How many classes it has submitted to the cache.
     *
     * @return their count at this moment
     */
    public int submitted() {
        return submitted.get();
    }

    /** A jar that is open, by a handle of this loader's own. */
    private static final class Jar {
        private final JarFile file;
        private final Manifest manifest;
        private final CodeSource source;

        Jar(URL root) throws IOException {
            JarURLConnection connection = (JarURLConnection) root.openConnection();
            connection.setUseCaches(false);
            file = connection.getJarFile();
            manifest = file.getManifest();
            source = new CodeSource(connection.getJarFileURL(), (CodeSigner[]) null);
        }

        /** Nothing in the manifest is about this class or package alone, or seals it. */
        boolean isPlain(String entry, String folder) {
            return manifest == null || manifest.getAttributes(entry) == null
                    && manifest.getAttributes(folder) == null
                    && manifest.getMainAttributes().getValue(Attributes.Name.SEALED) == null;
        }
    }

    @Override
    protected Class<?> findClass(String name) throws ClassNotFoundException {
        String path = name.replace('.', '/');
        URL url = findResource(path + ".class");
        try {
            Jar jar = url == null ? null : jarOf(url, path);
            if (jar != null) {
                return define(name, path, jar);
            }
        } catch (IOException e) {
            throw new ClassNotFoundException(name, e);
        }
        return super.findClass(name);
    }

    /** The jar that has the class as a plain entry; null if that isn't so. */
    private Jar jarOf(URL url, String path) throws IOException {
        String entry = path + ".class";
        String text = url.toString();
        if (!text.startsWith("jar:file:") || !text.endsWith("!/" + entry)) {
            return null;
        }
        String root = text.substring(0, text.length() - entry.length());
        Jar jar = jars.get(root);
        if (jar == null) {
            jar = added(root);
        }
        String folder = path.substring(0, path.lastIndexOf('/') + 1);
        return jar.isPlain(entry, folder) && !isSealed(folder) ? jar : null;
    }

    private Jar added(String root) throws IOException {
        Jar made = new Jar(new URL(root));
        Jar other = jars.putIfAbsent(root, made);
        if (other == null) {
            return made;
        }
        made.file.close();
        return other;
    }

    /** Whether another jar has sealed the package of this folder. */
    @SuppressWarnings("deprecation")
    private boolean isSealed(String folder) {
        Package found = folder.isEmpty() ? null
                : getPackage(folder.substring(0, folder.length() - 1).replace('/', '.'));
        return found != null && found.isSealed();
    }

    private Class<?> define(String name, String path, Jar jar) throws IOException {
        JarEntry entry = jar.file.getJarEntry(path + ".class");
        byte[] bytes = cached(path, entry);
        boolean isCached = bytes != null;
        if (!isCached) {
            bytes = read(jar, entry);
        }
        definePackage(name, jar);
        Class<?> defined = defineClass(name, bytes, 0, bytes.length, jar.source);
        if (isCached) {
            fromCache.incrementAndGet();
        } else if (ClassCache.isOfVersion52(bytes)) {
            submit(bytes);
        }
        return defined;
    }

    /** The bytes of the class by the cache, if they are those of the entry. */
    private byte[] cached(String path, JarEntry entry) {
        Optional<ClassRecord> found;
        try {
            found = cache.find(loader, path);
        } catch (IllegalStateException | UncheckedIOException e) {
            return null; // the cache is closed, or its record of the class damaged
        }
        byte[] bytes = found.map(ClassRecord::classFile).orElse(null);
        if (bytes == null || bytes.length != entry.getSize()) {
            return null;
        }
        CRC32 sum = new CRC32();
        sum.update(bytes, 0, bytes.length);
        return sum.getValue() == entry.getCrc() ? bytes : null;
    }

    private static byte[] read(Jar jar, JarEntry entry) throws IOException {
        byte[] bytes = new byte[(int) entry.getSize()];
        try (InputStream from = jar.file.getInputStream(entry)) {
            new DataInputStream(from).readFully(bytes);
        }
        return bytes;
    }

    private void definePackage(String name, Jar jar) {
        int dot = name.lastIndexOf('.');
        if (dot < 0 || !packages.add(name.substring(0, dot))) {
            return;
        }
        try {
            Manifest manifest = jar.manifest == null ? new Manifest() : jar.manifest;
            definePackage(name.substring(0, dot), manifest, jar.source.getLocation());
        } catch (IllegalArgumentException e) {
            // It is there, by another way of defining classes.
        }
    }

    /** That the cache doesn't take a class is no reason not to load it. */
    private void submit(byte[] bytes) {
        try {
            try {
                cache.submitDefine(loader, bytes);
            } catch (CacheException e) {
                if (e.status() != CacheException.Status.NO_LOADER) {
                    return;
                }
                cache.ensureLoader(loader);
                cache.submitDefine(loader, bytes);
            }
            submitted.incrementAndGet();
        } catch (CacheException | IllegalStateException | UnsupportedOperationException e) {
            // The next start reads the class from its jar again.
        }
    }

    /**
     * Closes the jars. The cache stays open.
     *
     * @throws IOException if closing one of them fails
     */
    @Override
    public void close() throws IOException {
        super.close();
        for (Jar jar : jars.values()) {
            jar.file.close();
        }
    }
}
