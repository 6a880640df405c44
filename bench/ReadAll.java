import java.io.BufferedInputStream;
import java.io.ByteArrayInputStream;
import java.io.DataInputStream;
import java.io.IOException;
import java.util.ArrayList;
import java.util.List;
import java.util.Map;
import javassist.bytecode.ClassFile;
import org.apache.bcel.classfile.ClassParser;
import org.apache.bcel.classfile.JavaClass;
import org.objectweb.asm.ClassReader;
import org.objectweb.asm.tree.ClassNode;

/**
 * A mature library's full read of the class files on standard input, each preceded by its length in
 * four bytes. Prints a line in the form of cm_bench.
 *
 * Arguments: the library (ASM, Javassist or BCEL), passes to warm up, and passes of which the best
 * counts.
 */
public final class ReadAll {
    private ReadAll() {}

    /**
     * Reads one class file, and returns how many members it has: the result must be used, or the
     * compiler may leave the reading out.
     */
    private interface Library {
        long members(byte[] bytes) throws IOException;
    }

    private static final Map<String, Library> LIBRARIES = Map.of(
            "ASM", bytes -> {
                // A tree of members, instructions and attributes.
                ClassNode node = new ClassNode();
                new ClassReader(bytes).accept(node, 0);
                return node.fields.size() + node.methods.size();
            },
            "Javassist", bytes -> {
                ByteArrayInputStream in = new ByteArrayInputStream(bytes);
                ClassFile file = new ClassFile(new DataInputStream(in));
                return file.getFields().size() + file.getMethods().size();
            },
            "BCEL", bytes -> {
                ByteArrayInputStream in = new ByteArrayInputStream(bytes);
                JavaClass parsed = new ClassParser(in, "input").parse();
                return parsed.getFields().length + parsed.getMethods().length;
            });

    private static List<byte[]> read() throws IOException {
        List<byte[]> classes = new ArrayList<>();
        try (DataInputStream in = new DataInputStream(new BufferedInputStream(System.in))) {
            while (true) {
                byte[] length = in.readNBytes(4);
                if (length.length == 0) {
                    return classes;
                }
                int size = new DataInputStream(new ByteArrayInputStream(length)).readInt();
                classes.add(in.readNBytes(size));
            }
        }
    }

    private static long pass(Library library, List<byte[]> classes) throws IOException {
        long members = 0;
        for (byte[] bytes : classes) {
            members += library.members(bytes);
        }
        return members;
    }

    public static void main(String[] args) throws IOException {
        Library library = LIBRARIES.get(args[0]);
        int warm = Integer.parseInt(args[1]);
        int passes = Integer.parseInt(args[2]);
        List<byte[]> classes = read();
        long bytes = classes.stream().mapToLong(each -> each.length).sum();
        long members = 0;
        for (int i = 0; i < warm; i++) {
            members += pass(library, classes);
        }
        long best = Long.MAX_VALUE;
        for (int i = 0; i < passes; i++) {
            long start = System.nanoTime();
            members += pass(library, classes);
            best = Math.min(best, System.nanoTime() - start);
        }
        long tenths = bytes * 10_000 / best;
        System.out.printf("%s classes %d bytes %d faults 0 best %d ns %d.%d MB/s%n",
                args[0], classes.size(), bytes, best, tenths / 10, tenths % 10);
        if (members < 0) {
            throw new IllegalStateException();
        }
    }
}
