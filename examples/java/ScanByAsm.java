import java.io.DataInputStream;
import java.io.IOException;
import java.io.InputStream;
import java.util.ArrayList;
import java.util.Arrays;
import java.util.Collections;
import java.util.List;
import java.util.zip.ZipEntry;
import java.util.zip.ZipFile;
import org.objectweb.asm.AnnotationVisitor;
import org.objectweb.asm.ClassReader;
import org.objectweb.asm.ClassVisitor;
import org.objectweb.asm.MethodVisitor;
import org.objectweb.asm.Opcodes;

/**
 * Lists the annotated classes of jars as Scan.java does, by ASM and without a cache:
 *
 * <pre>java -cp asm.jar examples/java/ScanByAsm.java JAR..</pre>
 */
public final class ScanByAsm extends ClassVisitor {
    private static final int VERSION = 52;

    private static int classes;

    private final List<String> visible = new ArrayList<>();
    private final List<String> invisible = new ArrayList<>();
    private final List<String> methods = new ArrayList<>();
    private String name;
    private String head;

    private ScanByAsm() {
        super(Opcodes.ASM9);
    }

    @Override
    public void visit(int version, int access, String name, String signature, String superName,
            String[] interfaces) {
        this.name = name;
        // ASM adds bits of its own above those of the class file.
        head = name + " " + Integer.toHexString(access & 0xffff) + " extends " + superName + " "
                + Arrays.toString(interfaces);
    }

    @Override
    public AnnotationVisitor visitAnnotation(String descriptor, boolean isVisible) {
        (isVisible ? visible : invisible).add(descriptor);
        return null;
    }

    @Override
    public MethodVisitor visitMethod(int access, String method, String descriptor,
            String signature, String[] exceptions) {
        List<String> first = new ArrayList<>();
        List<String> second = new ArrayList<>();
        return new MethodVisitor(Opcodes.ASM9) {
            @Override
            public AnnotationVisitor visitAnnotation(String type, boolean isVisible) {
                (isVisible ? first : second).add(type);
                return null;
            }

            @Override
            public void visitEnd() {
                first.addAll(second);
                if (!first.isEmpty()) {
                    methods.add(name + "." + method + descriptor + ": " + first);
                }
            }
        };
    }

    @Override
    public void visitEnd() {
        visible.addAll(invisible);
        if (!visible.isEmpty()) {
            System.out.println(head + ": " + visible);
        }
        methods.forEach(System.out::println);
    }

    private static void jar(String path) throws IOException {
        try (ZipFile jar = new ZipFile(path)) {
            for (ZipEntry entry : Collections.list(jar.entries())) {
                String name = entry.getName();
                if (name.endsWith(".class") && !name.startsWith("META-INF/")) {
                    read(jar, entry);
                }
            }
        }
    }

    private static void read(ZipFile jar, ZipEntry entry) throws IOException {
        byte[] file = new byte[(int) entry.getSize()];
        try (InputStream from = jar.getInputStream(entry)) {
            new DataInputStream(from).readFully(file);
        }
        if (file[7] == VERSION) {
            classes++;
            new ClassReader(file).accept(new ScanByAsm(), ClassReader.SKIP_CODE);
        }
    }

    public static void main(String[] jars) throws IOException {
        long begin = System.nanoTime();
        for (String jar : jars) {
            jar(jar);
        }
        System.err.println(classes + " classes in " + (System.nanoTime() - begin) / 1_000_000
                + " ms");
    }
}
