import java.io.DataInputStream;
import java.io.IOException;
import java.io.InputStream;
import java.nio.file.Paths;
import java.util.ArrayList;
import java.util.Arrays;
import java.util.Collections;
import java.util.List;
import java.util.zip.ZipEntry;
import java.util.zip.ZipFile;
import org.cmcache.AnnotationRecord;
import org.cmcache.CacheException;
import org.cmcache.ClassCache;
import org.cmcache.ClassRecord;
import org.cmcache.Member;

/**
 * Lists the annotated classes of jars, as a framework does at its start:
 *
 * <pre>java -cp out/cmcache.jar examples/java/Scan.java FILE LOADER JAR..</pre>
 *
 * The first run reads the classes and stores them in the cache of FILE; later runs find them there.
 * LOADER names today's jars: with another set of jars, choose another. ScanByAsm.java prints the
 * same without a cache.
 */
public final class Scan {
    private static final String SUFFIX = ".class";

    private final ClassCache cache;
    private final String loader;
    private int classes;
    private int stored;

    private Scan(ClassCache cache, String loader) {
        this.cache = cache;
        this.loader = loader;
    }

    private void jar(String path) throws IOException {
        try (ZipFile jar = new ZipFile(path)) {
            for (ZipEntry entry : Collections.list(jar.entries())) {
                String name = entry.getName();
                if (name.endsWith(SUFFIX) && !name.startsWith("META-INF/")) {
                    read(jar, entry, name.substring(0, name.length() - SUFFIX.length()));
                }
            }
        }
    }

    private void read(ZipFile jar, ZipEntry entry, String name) throws IOException {
        ClassRecord record = cache.find(loader, name).orElse(null);
        if (record == null && store(jar, entry)) {
            record = cache.find(loader, name).orElse(null);
        }
        if (record != null) {
            classes++;
            print(record);
        }
    }

    /** Accepted is enough: close, at the end, waits until all is stored. */
    private boolean store(ZipFile jar, ZipEntry entry) throws IOException {
        byte[] file = new byte[(int) entry.getSize()];
        try (InputStream from = jar.getInputStream(entry)) {
            new DataInputStream(from).readFully(file);
        }
        try {
            cache.submitDefine(loader, file);
            stored++;
            return true;
        } catch (CacheException.BadClass e) {
            return false; // of another version of Java
        }
    }

    private static void print(ClassRecord record) {
        List<AnnotationRecord> annotations = record.annotations();
        if (!annotations.isEmpty()) {
            System.out.println(record.name() + " " + Integer.toHexString(record.accessFlags())
                    + " extends " + record.superName().orElse("nothing") + " "
                    + record.interfaces() + ": " + types(annotations));
        }
        for (Member method : record.methods()) {
            annotations = method.annotations();
            if (!annotations.isEmpty()) {
                System.out.println(record.name() + "." + method.name() + method.descriptor() + ": "
                        + types(annotations));
            }
        }
    }

    private static List<String> types(List<AnnotationRecord> annotations) {
        List<String> types = new ArrayList<>();
        for (AnnotationRecord annotation : annotations) {
            types.add(annotation.type());
        }
        return types;
    }

    public static void main(String[] words) throws IOException {
        long begin = System.nanoTime();
        try (ClassCache cache = ClassCache.open(Paths.get(words[0]),
                ClassCache.Options.create())) {
            cache.ensureLoader(words[1]);
            Scan scan = new Scan(cache, words[1]);
            for (String jar : Arrays.asList(words).subList(2, words.length)) {
                scan.jar(jar);
            }
            System.err.println(scan.classes + " classes, " + scan.stored + " of them stored, in "
                    + (System.nanoTime() - begin) / 1_000_000 + " ms");
        }
    }
}
