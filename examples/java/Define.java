import static java.lang.foreign.ValueLayout.ADDRESS;
import static java.lang.foreign.ValueLayout.JAVA_INT;
import static java.lang.foreign.ValueLayout.JAVA_LONG;

import java.lang.foreign.Arena;
import java.lang.foreign.FunctionDescriptor;
import java.lang.foreign.Linker;
import java.lang.foreign.MemoryLayout;
import java.lang.foreign.MemorySegment;
import java.lang.foreign.SymbolLookup;
import java.lang.invoke.MethodHandle;
import java.nio.file.Files;
import java.nio.file.Path;
import java.util.List;

/**
 * Makes a cache in a new file, defines class files there in the loader {@code app}, and looks one
 * up, by the foreign-function interface of Java 22 and later:
 *
 * <pre>java --enable-native-access=ALL-UNNAMED Define.java LIBRARY FILE NAME CLASS_FILE..</pre>
 *
 * LIBRARY is the path of libcmcache.so, and NAME that of the class to be looked up, as
 * java/lang/Object. The jar (docs/JAVA.md) is simpler and quicker; this shows how to call what it
 * doesn't have.
 */
public final class Define {
    /** A handle, {@code {bool full; void *at;}}; full of zeros it is empty. */
    private static final long HANDLE_BYTES = 16;
    private static final long BAD_CLASS_BYTES = 24;

    private final Arena arena;
    private final SymbolLookup library;
    private final MemorySegment number;
    private MemorySegment cache;

    private Define(Arena arena, Path library) {
        this.arena = arena;
        this.library = SymbolLookup.libraryLookup(library, arena);
        this.number = arena.allocate(JAVA_LONG);
    }

    private MethodHandle call(String name, MemoryLayout... parameters) {
        return Linker.nativeLinker().downcallHandle(library.find(name).orElseThrow(),
                FunctionDescriptor.of(JAVA_INT, parameters));
    }

    private static void check(String what, Object status) {
        if ((int) status != 0) {
            throw new IllegalStateException(what + ": status " + status);
        }
    }

    private MemorySegment bytes(byte[] bytes) {
        MemorySegment to = arena.allocate(Math.max(1, bytes.length));
        MemorySegment.copy(MemorySegment.ofArray(bytes), 0, to, 0, bytes.length);
        return to;
    }

    private void open(String path) throws Throwable {
        MemorySegment name = arena.allocateFrom(path);
        MemorySegment to = arena.allocate(ADDRESS);
        check(path, call("cmcache_format", ADDRESS, JAVA_INT, JAVA_INT, JAVA_INT)
                .invoke(name, 8, 64, 4096));
        check(path, call("cmcache_open", ADDRESS, ADDRESS, ADDRESS)
                .invoke(name, to, MemorySegment.NULL));
        cache = to.get(ADDRESS, 0);
    }

    /** The length of a text that ends with a zero. */
    private static long length(MemorySegment text) {
        return text.byteSize() - 1;
    }

    private void addLoader(MemorySegment loader) throws Throwable {
        check("the loader", call("cmcache_add_loader", ADDRESS, ADDRESS, JAVA_LONG, ADDRESS)
                .invoke(cache, loader, length(loader), number));
    }

    private MemorySegment prepared(String path) throws Throwable {
        byte[] read = Files.readAllBytes(Path.of(path));
        MemorySegment prepared = arena.allocate(HANDLE_BYTES, 8);
        MemorySegment bad = arena.allocate(BAD_CLASS_BYTES, 8);
        check(path, call("cmcore_prepare", ADDRESS, JAVA_LONG, ADDRESS, ADDRESS)
                .invoke(bytes(read), (long) read.length, prepared, bad));
        return prepared;
    }

    private void define(MemorySegment loader, String path) throws Throwable {
        MemorySegment prepared = prepared(path);
        check(path, call("cmcache_define", ADDRESS, ADDRESS, JAVA_LONG, ADDRESS, ADDRESS)
                .invoke(cache, loader, length(loader), prepared, number));
        check(path, call("cmcore_release", ADDRESS).invoke(prepared));
        System.out.println(path + " is stored: command " + number.get(JAVA_LONG, 0));
    }

    private void find(MemorySegment loader, String name) throws Throwable {
        MemorySegment asked = arena.allocateFrom(name);
        MemorySegment record = arena.allocate(HANDLE_BYTES, 8);
        MemorySegment words = arena.allocate(ADDRESS);
        MemorySegment count = arena.allocate(JAVA_LONG);
        check(name, call("cmcache_find", ADDRESS, ADDRESS, JAVA_LONG, ADDRESS, JAVA_LONG, ADDRESS)
                .invoke(cache, loader, length(loader), asked, length(asked), record));
        check(name, call("cmcore_record_words", ADDRESS, ADDRESS, ADDRESS)
                .invoke(record, words, count));
        long[] found = words.get(ADDRESS, 0).reinterpret(8 * count.get(JAVA_LONG, 0))
                .toArray(JAVA_LONG);
        System.out.printf("%s flags %04x words %d%n", name, found[1] & 0xffff, found.length);
        for (long word : found) {
            System.out.printf("%016x%n", word);
        }
        check(name, call("cmcore_release", ADDRESS).invoke(record));
    }

    public static void main(String[] words) throws Throwable {
        if (words.length < 3) {
            System.err.println("usage: Define LIBRARY FILE NAME CLASS_FILE..");
            System.exit(2);
        }
        try (Arena arena = Arena.ofConfined()) {
            Define define = new Define(arena, Path.of(words[0]).toAbsolutePath());
            MemorySegment loader = arena.allocateFrom("app");
            define.open(words[1]);
            define.addLoader(loader);
            for (String path : List.of(words).subList(3, words.length)) {
                define.define(loader, path);
            }
            define.find(loader, words[2]);
            check("close", define.call("cmcache_close", ADDRESS).invoke(define.cache));
        }
    }
}
