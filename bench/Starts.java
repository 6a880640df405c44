import java.io.ByteArrayInputStream;
import java.io.DataInputStream;
import java.io.IOException;
import java.io.InputStream;
import java.net.URL;
import java.net.URLClassLoader;
import java.nio.file.Paths;
import java.util.ArrayList;
import java.util.Arrays;
import java.util.Collections;
import java.util.List;
import java.util.zip.ZipEntry;
import java.util.zip.ZipFile;
import javassist.bytecode.AnnotationsAttribute;
import javassist.bytecode.ClassFile;
import javassist.bytecode.MethodInfo;
import javassist.bytecode.annotation.Annotation;
import org.cmcache.AnnotationRecord;
import org.cmcache.Attributed;
import org.cmcache.CachingClassLoader;
import org.cmcache.ClassCache;
import org.cmcache.ClassRecord;
import org.cmcache.Member;
import org.cmcache.Pending;
import org.objectweb.asm.AnnotationVisitor;
import org.objectweb.asm.ClassReader;
import org.objectweb.asm.ClassVisitor;
import org.objectweb.asm.MethodVisitor;
import org.objectweb.asm.Opcodes;

/**
 * What a server does with its jars' classes of version 52.0 at a start, in one of several ways; for
 * bench/java.sh.
 *
 * <pre>Starts WAY FILE JAR..</pre>
 *
 * Metadata (ways {@code cache}, {@code cache-written}, {@code asm}, {@code javassist}): of each
 * class its flags, super class, interfaces and annotations, and of each method its flags, name,
 * descriptor and annotations, as one sum, which is the same for all. A cache is opened only to be
 * read, but for {@code cache-written}. {@code unpack} only reads the bytes.
 * {@code load} and {@code load-cached} define all classes, by a URLClassLoader and by a
 * CachingClassLoader. {@code fill} makes the file.
 */
public final class Starts {
    private static final String LOADER = "app";

    private static long sum;
    private static long all; // whatever the order of the classes
    private static int classes;

    private Starts() {}

    private static void add(Object text) {
        sum = 31 * sum + (text == null ? 0 : text.hashCode());
    }

    /** The end of a class. */
    private static void end() {
        classes++;
        all += sum;
        sum = 0;
    }

    /** What is done with an entry of a jar. */
    private interface Way {
        void take(ZipFile jar, ZipEntry entry) throws IOException;
    }

    private static void each(List<String> jars, Way way) throws IOException {
        for (String path : jars) {
            try (ZipFile jar = new ZipFile(path)) {
                for (ZipEntry entry : Collections.list(jar.entries())) {
                    if (entry.getName().endsWith(".class")
                            && !entry.getName().startsWith("META-INF/")) {
                        way.take(jar, entry);
                    }
                }
            }
        }
    }

    private static byte[] bytes(ZipFile jar, ZipEntry entry) throws IOException {
        byte[] file = new byte[(int) entry.getSize()];
        try (InputStream from = jar.getInputStream(entry)) {
            new DataInputStream(from).readFully(file);
        }
        return file;
    }

    private static String name(ZipEntry entry) {
        return entry.getName().substring(0, entry.getName().length() - ".class".length());
    }

    /** What is done with the bytes of a class of version 52.0. */
    private interface Reader {
        void read(byte[] file) throws IOException;
    }

    private static void eachFile(List<String> jars, Reader reader) throws IOException {
        each(jars, (jar, entry) -> {
            byte[] file = bytes(jar, entry);
            if (file[7] == 52) {
                reader.read(file);
                end();
            }
        });
    }

    // ---- metadata by the cache

    private static void byCache(ClassCache cache) {
        for (String name : cache.classes(LOADER)) {
            read(cache.find(LOADER, name).get());
            end();
        }
    }

    private static void read(ClassRecord record) {
        add(record.accessFlags());
        add(record.superName().orElse(null));
        record.interfaces().forEach(Starts::add);
        annotations(record);
        for (Member method : record.methods()) {
            add(method.accessFlags());
            add(method.name());
            add(method.descriptor());
            annotations(method);
        }
    }

    private static void annotations(Attributed of) {
        for (AnnotationRecord annotation : of.annotations()) {
            if (annotation.isVisible()) {
                add(annotation.type());
            }
        }
    }

    // ---- by ASM

    private static final class Visitor extends ClassVisitor {
        Visitor() {
            super(Opcodes.ASM9);
        }

        @Override
        public void visit(int version, int access, String name, String signature,
                String superName, String[] interfaces) {
            add(access & 0xffff);
            add(superName);
            Arrays.asList(interfaces).forEach(Starts::add);
        }

        @Override
        public AnnotationVisitor visitAnnotation(String type, boolean isVisible) {
            if (isVisible) {
                add(type);
            }
            return null;
        }

        @Override
        public MethodVisitor visitMethod(int access, String name, String descriptor,
                String signature, String[] exceptions) {
            add(access & 0xffff);
            add(name);
            add(descriptor);
            return new MethodVisitor(Opcodes.ASM9) {
                @Override
                public AnnotationVisitor visitAnnotation(String type, boolean isVisible) {
                    return Visitor.this.visitAnnotation(type, isVisible);
                }
            };
        }
    }

    private static void byAsm(byte[] file) {
        new ClassReader(file).accept(new Visitor(), ClassReader.SKIP_CODE);
    }

    // ---- by Javassist

    private static String descriptor(String dotted) {
        return "L" + dotted.replace('.', '/') + ";";
    }

    private static void annotations(AnnotationsAttribute attribute) {
        if (attribute != null) {
            for (Annotation annotation : attribute.getAnnotations()) {
                add(descriptor(annotation.getTypeName()));
            }
        }
    }

    private static void byJavassist(byte[] bytes) throws IOException {
        ClassFile file = new ClassFile(new DataInputStream(new ByteArrayInputStream(bytes)));
        add(file.getAccessFlags());
        add(file.getSuperclass() == null ? null : file.getSuperclass().replace('.', '/'));
        for (String name : file.getInterfaces()) {
            add(name.replace('.', '/'));
        }
        annotations((AnnotationsAttribute) file.getAttribute(AnnotationsAttribute.visibleTag));
        for (MethodInfo method : file.getMethods()) {
            add(method.getAccessFlags());
            add(method.getName());
            add(method.getDescriptor());
            annotations((AnnotationsAttribute) method
                    .getAttribute(AnnotationsAttribute.visibleTag));
        }
    }

    // ---- loading

    private static void load(URLClassLoader loader, List<String> jars) throws IOException {
        each(jars, (jar, entry) -> {
            try {
                Class.forName(name(entry).replace('/', '.'), false, loader);
                classes++;
            } catch (ClassNotFoundException | LinkageError e) {
                // A class that it extends is in none of the jars.
            }
        });
    }

    private static URL[] urls(List<String> jars) throws IOException {
        List<URL> urls = new ArrayList<>();
        for (String jar : jars) {
            urls.add(Paths.get(jar).toUri().toURL());
        }
        return urls.toArray(new URL[0]);
    }

    private static void fill(ClassCache cache, List<String> jars) throws IOException {
        cache.ensureLoader(LOADER);
        List<Pending> pending = new ArrayList<>();
        eachFile(jars, file -> pending.add(cache.submitDefine(LOADER, file)));
        pending.get(pending.size() - 1).await();
    }

    private static void run(String way, String path, List<String> jars) throws IOException {
        switch (way) {
            case "asm":
                eachFile(jars, Starts::byAsm);
                break;
            case "javassist":
                eachFile(jars, Starts::byJavassist);
                break;
            case "unpack":
                eachFile(jars, file -> { });
                break;
            case "load":
                load(new URLClassLoader(urls(jars)), jars);
                break;
            default:
                withCache(way, path, jars);
        }
    }

    private static void withCache(String way, String path, List<String> jars) throws IOException {
        boolean fills = way.equals("fill");
        try (ClassCache cache = fills || way.endsWith("-written")
                ? ClassCache.open(Paths.get(path), ClassCache.Options.create())
                : ClassCache.openReadOnly(Paths.get(path))) {
            if (fills) {
                fill(cache, jars);
            } else if (way.startsWith("cache")) {
                byCache(cache);
            } else {
                load(new CachingClassLoader(cache, LOADER, urls(jars),
                        Starts.class.getClassLoader()), jars);
            }
        }
    }

    public static void main(String[] words) throws IOException {
        run(words[0], words[1], Arrays.asList(words).subList(2, words.length));
        System.out.println(classes + " " + Long.toHexString(all));
    }
}
