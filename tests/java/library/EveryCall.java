import java.io.IOException;
import java.io.InputStream;
import java.io.RandomAccessFile;
import java.io.UncheckedIOException;
import java.net.URI;
import java.nio.ByteBuffer;
import java.nio.ReadOnlyBufferException;
import java.nio.file.FileSystem;
import java.nio.file.FileSystems;
import java.nio.file.Files;
import java.nio.file.Path;
import java.nio.file.Paths;
import java.util.Arrays;
import java.util.Collections;
import java.util.List;
import java.util.Optional;
import java.util.zip.GZIPInputStream;
import org.cmcache.Attribute;
import org.cmcache.CacheException;
import org.cmcache.CacheException.BadClass.Spot;
import org.cmcache.CacheException.BadClass.Why;
import org.cmcache.CacheException.Damaged.What;
import org.cmcache.CacheException.Status;
import org.cmcache.CacheStats;
import org.cmcache.ClassCache;
import org.cmcache.ClassRecord;
import org.cmcache.Pending;

/**
 * Every call of the Java library: what it does, and each refusal that can be had without a fault of
 * the system. Makes its files in the folder that is given. Expected values are those of
 * docs/PROGRAM.md, REGION.md, RECORD.md and RULES.md.
 */
final class EveryCall {
    private static final Checks CHECKS = new Checks();
    private static final ClassCache.Options SMALL =
            ClassCache.Options.create().roots(8, 64).slots(4096);
    private static final byte[] A = Samples.named("A");

    private static Path folder;

    private EveryCall() {}

    private static void refused(String name, Status status, Checks.Call call) {
        CacheException thrown = CHECKS.threw(name, CacheException.class, call);
        CHECKS.that(name + " is " + status, thrown != null && thrown.status() == status);
        CHECKS.that(name + " says why", thrown != null
                && thrown.getMessage().endsWith(": " + status.text()));
    }

    private static Path path(String name) {
        return folder.resolve(name);
    }

    private static ClassCache fresh(String name) throws CacheException {
        return ClassCache.open(path(name), SMALL);
    }

    // ---- files

    private static void makesFiles() throws Exception {
        fresh("made").close();
        CHECKS.equal("a new file's length", 528384L, Files.size(path("made")));
        ClassCache.open(path("made"), ClassCache.Options.create()).close();
        CHECKS.equal("a file that is there stays", 528384L, Files.size(path("made")));
        ClassCache.open(path("least"), SMALL.roots(3, 1).slots(256)).close();
        ClassCache.Options most = ClassCache.Options.create();
        try (ClassCache cache = ClassCache.open(path("most"), most)) {
            CHECKS.equal("the largest sizes", "accepted 0 stored 0 top 12 roots 256 slots 65536",
                    cache.stats().toString());
            CHECKS.equal("the path", path("most"), cache.path());
            CHECKS.equal("toString", "cache " + path("most"), cache.toString());
        }
        for (ClassCache.Options wrong : Arrays.asList(most.roots(2, 64), most.roots(13, 64),
                most.roots(8, 0), most.roots(8, 257), most.roots(-1, -1), most.slots(255),
                most.slots(65537))) {
            refused("wrong sizes", Status.BAD_SIZES, () -> ClassCache.open(path("none"), wrong));
            CHECKS.that("and no file", !Files.exists(path("none")));
        }
        ClassCache.open(path("na\u00efve %41 \u732b"), SMALL).close();
        ClassCache.open(path("na\u00efve %41 \u732b")).close();
        CHECKS.that("a name that isn't ASCII", Files.exists(path("na\u00efve %41 \u732b")));
    }

    private static void device(String name, int errno, Checks.Call call) {
        CacheException.Device thrown = CHECKS.threw(name, CacheException.Device.class, call);
        CHECKS.that(name + " has the cause " + errno, thrown != null && thrown.errno() == errno
                && thrown.status() == Status.DEVICE);
    }

    private static void changed(String name, int at, int value, What what, int slot)
            throws Exception {
        fresh(name).close();
        try (RandomAccessFile file = new RandomAccessFile(path(name).toFile(), "rw")) {
            file.seek(at);
            file.write(value);
        }
        CacheException.Damaged thrown = CHECKS.threw(name, CacheException.Damaged.class,
                () -> ClassCache.open(path(name)));
        CHECKS.that(name + " is damaged there", thrown != null && thrown.what() == what
                && thrown.slot() == slot && thrown.status() == Status.DAMAGED
                && thrown.getMessage().contains("damaged " + what.number() + " " + slot + ": "));
    }

    private static void refusesFiles() throws Exception {
        refused("no file", Status.NO_FILE, () -> ClassCache.open(path("none")));
        refused("no file to read", Status.NO_FILE, () -> ClassCache.openReadOnly(path("none")));
        refused("no folder", Status.NO_FILE, () -> ClassCache.open(path("none/none"), SMALL));
        refused("a folder", Status.NOT_REGULAR, () -> ClassCache.open(folder));
        refused("a folder to be made", Status.NOT_REGULAR, () -> ClassCache.open(folder, SMALL));
        refused("a device", Status.NOT_REGULAR, () -> ClassCache.open(Paths.get("/dev/null")));
        Files.createFile(path("empty"));
        refused("no bytes", Status.NOT_A_CACHE, () -> ClassCache.open(path("empty")));
        Files.write(path("zeros"), new byte[8192]);
        refused("zeros", Status.NOT_A_CACHE, () -> ClassCache.open(path("zeros"), SMALL));
        Path huge = path("huge");
        try (RandomAccessFile file = new RandomAccessFile(huge.toFile(), "rw")) {
            file.setLength((1L << 40) + 1);
        }
        refused("too many bytes", Status.TOO_LONG, () -> ClassCache.open(huge));
        Files.delete(huge);
        changed("superblock", 8, 2, What.SUPERBLOCK, 0);
        changed("head", 4096 + 2, 3, What.HEAD, 0);
        changed("group", 4096 + 64, 0xa5, What.HEAD, 1);
        refusesPaths();
        try (ClassCache cache = fresh("busy")) {
            refused("a file that is open", Status.BUSY, () -> ClassCache.open(path("busy")));
            refused("and is to be made", Status.BUSY, () -> ClassCache.open(path("busy"), SMALL));
            cache.addLoader("app");
        }
        try (ClassCache cache = ClassCache.open(path("busy"))) {
            refused("what was stored", Status.LOADER_EXISTS, () -> cache.addLoader("app"));
        }
    }

    private static void refusesPaths() throws Exception {
        CHECKS.threw("no path", NullPointerException.class, () -> ClassCache.open(null));
        CHECKS.threw("no path to make", NullPointerException.class,
                () -> ClassCache.open(null, SMALL));
        CHECKS.threw("no options", NullPointerException.class,
                () -> ClassCache.open(path("none"), null));
        try (FileSystem zip = FileSystems.newFileSystem(URI.create("jar:" + path("zip").toUri()),
                Collections.singletonMap("create", "true"))) {
            CHECKS.threw("a path in a zip", IllegalArgumentException.class,
                    () -> ClassCache.open(zip.getPath("/cache")));
        }
        CHECKS.that("and no file", !Files.exists(path("none")));
    }

    // ---- commands

    private static void bad(String name, byte[] file, Why why, int rule, Spot spot, long at,
            String text) throws Exception {
        try (ClassCache cache = fresh("bad")) {
            cache.ensureLoader("app");
            CacheException.BadClass thrown = CHECKS.threw(name, CacheException.BadClass.class,
                    () -> cache.define("app", file));
            CHECKS.that(name + " is refused for this", thrown != null && thrown.why() == why
                    && thrown.rule() == rule && thrown.spot() == spot && thrown.at() == at
                    && thrown.status() == Status.BAD_CLASS);
            CHECKS.that(name + " says why", thrown != null
                    && thrown.getMessage().equals("bad class: " + text));
            CHECKS.threw(name + ", submitted", CacheException.BadClass.class,
                    () -> cache.submitDefine("app", file));
            CHECKS.equal(name + " changes nothing", 1L, cache.stats().accepted());
        }
    }

    private static byte[] changed(int at, int value) {
        byte[] file = A.clone();
        file[at] = (byte) value;
        return file;
    }

    private static void refusesClasses() throws Exception {
        bad("no bytes", new byte[0], Why.TRUNCATED, 0, null, 0, "it is truncated");
        bad("a byte less", Arrays.copyOf(A, A.length - 1), Why.TRUNCATED, 0, null, 0,
                "it is truncated");
        bad("a byte more", Arrays.copyOf(A, A.length + 1), Why.TRAILING, 0, null, A.length,
                "it ends before byte " + A.length);
        bad("another version", changed(7, 0x35), Why.OTHER_VERSION, 0, null, 53 << 16,
                "it is of version 53.0, and not of 52.0");
        bad("no class file", changed(0, 0), Why.MALFORMED, 0, null, 0,
                "byte 0 is none of a class file");
        bad("a Class that names a Class", changed(12, 3), Why.RULE, 2, Spot.POOL, 1,
                "it breaks rule 2 at pool 1");
        bad("an interface that isn't abstract", changed(39, 2), Why.RULE, 10, Spot.THIS, 0,
                "it breaks rule 10 at this");
    }

    private static void takesCommands() throws Exception {
        ClassCache cache = fresh("commands");
        refused("no loader", Status.NO_LOADER, () -> cache.define("app", A));
        CHECKS.equal("nothing is found", Optional.empty(), cache.find("app", "A"));
        CHECKS.equal("the first command", 1L, cache.addLoader("app"));
        refused("a loader twice", Status.LOADER_EXISTS, () -> cache.addLoader("app"));
        CHECKS.equal("the second", 2L, cache.define("app", A));
        refused("a class twice", Status.CLASS_EXISTS, () -> cache.define("app", A));
        refused("submitted twice", Status.CLASS_EXISTS, () -> cache.submitDefine("app", A));
        CHECKS.that("a loader is there", !cache.ensureLoader("app"));
        CHECKS.that("a loader is made", cache.ensureLoader("ext"));
        CHECKS.equal("in another loader", 4L, cache.define("ext", A));
        for (String[] none : new String[][] {{"app", "B"}, {"a b", "A"}, {"", ""}, {"app", ""},
                {"app", "\0"}, {"app", String.join("", Collections.nCopies(70000, "A"))},
                {String.join("", Collections.nCopies(300, "a")), "A"}}) {
            CHECKS.equal("none such", Optional.empty(), cache.find(none[0], none[1]));
        }
        ClassRecord record = cache.find("app", "A").get();
        CacheStats stats = cache.stats();
        CHECKS.that("stats", stats.accepted() == 4 && stats.stored() == 4 && stats.top() == 8
                && stats.roots() == 64 && stats.slots() == 4096);
        CHECKS.equal("unload", 5L, cache.unload("app"));
        refused("unloaded", Status.NO_LOADER, () -> cache.unload("app"));
        CHECKS.equal("gone", Optional.empty(), cache.find("app", "A"));
        CHECKS.that("but not the record", Arrays.equals(A, record.classFile()));
        CHECKS.equal("a move", 6L, cache.tighten("ext"));
        refused("nothing to move", Status.NO_MOVE, () -> cache.tighten("ext"));
        refused("no loader to tighten", Status.NO_LOADER, () -> cache.tighten("app"));
        cache.close();
        CHECKS.that("nor at close", Arrays.equals(A, record.classFile()));
        try (ClassCache again = ClassCache.open(path("commands"))) {
            CHECKS.that("found again",
                    Arrays.equals(A, again.find("ext", "A").get().classFile()));
            CHECKS.equal("numbers go on", 7L, again.addLoader("app"));
        }
    }

    private static void submitsCommands() throws Exception {
        ClassCache cache = fresh("submitted");
        refused("no loader", Status.NO_LOADER, () -> cache.submitDefine("app", A));
        cache.addLoader("app");
        Pending pending = cache.submitDefine("app", A);
        CHECKS.equal("the number", 2L, pending.number());
        CHECKS.equal("toString", "command 2", pending.toString());
        CHECKS.that("found at once", cache.find("app", "A").isPresent());
        pending.await();
        CHECKS.that("stored", pending.isStored());
        pending.await();
        Pending last = null;
        for (int at = 0; at < 500; at++) {
            last = cache.submitDefine("app", Samples.named("C" + at));
        }
        CHECKS.equal("the last number", 502L, last.number());
        cache.close();
        last.await();
        CHECKS.that("stored at close", last.isStored() && pending.isStored());
        try (ClassCache again = ClassCache.open(path("submitted"))) {
            CHECKS.equal("all are there", 502L, again.stats().stored());
            CHECKS.that("found", again.find("app", "C499").isPresent());
        }
    }

    private static void checksNames() throws Exception {
        String longest = String.join("", Collections.nCopies(96, "m"));
        try (ClassCache cache = fresh("names")) {
            for (String wrong : Arrays.asList("", longest + "m", "a b", "\u007f", "\u00e4", "a\0b",
                    "\ud83d\ude00", "\ud800",
                    String.join("", Collections.nCopies(9999, longest)))) {
                refused("add " + wrong.length(), Status.BAD_NAME, () -> cache.addLoader(wrong));
                refused("ensure", Status.BAD_NAME, () -> cache.ensureLoader(wrong));
                refused("unload", Status.BAD_NAME, () -> cache.unload(wrong));
                refused("tighten", Status.BAD_NAME, () -> cache.tighten(wrong));
                refused("define", Status.BAD_NAME, () -> cache.define(wrong, A));
                refused("submit", Status.BAD_NAME, () -> cache.submitDefine(wrong, A));
                refused("unload all", Status.BAD_NAME,
                        () -> cache.unloadAll(Arrays.asList("app", wrong)));
            }
            refused("none", Status.BAD_NAME, () -> cache.unloadAll(Collections.emptyList()));
            CHECKS.equal("the longest", 1L, cache.addLoader(longest));
            nulls(cache);
        }
    }

    private static void nulls(ClassCache cache) {
        List<Checks.Call> calls = Arrays.asList(() -> cache.addLoader(null),
                () -> cache.ensureLoader(null), () -> cache.define(null, A),
                () -> cache.define("app", null), () -> cache.submitDefine(null, A),
                () -> cache.submitDefine("app", null), () -> cache.unload(null),
                () -> cache.unloadAll(null), () -> cache.unloadAll(Arrays.asList("a", null)),
                () -> cache.tighten(null), () -> cache.find(null, "A"),
                () -> cache.find("app", null));
        for (Checks.Call call : calls) {
            CHECKS.threw("null " + calls.indexOf(call), NullPointerException.class, call);
        }
    }

    private static void unloadsSeveral() throws Exception {
        try (ClassCache cache = fresh("several")) {
            List<String> names = Arrays.asList("a", "b", "c", "d", "e", "f", "g", "h");
            for (String name : names) {
                cache.addLoader(name);
            }
            refused("eight", Status.BAD_LIST, () -> cache.unloadAll(names));
            refused("twice", Status.BAD_LIST, () -> cache.unloadAll(Arrays.asList("a", "b", "a")));
            refused("none such", Status.NO_LOADER,
                    () -> cache.unloadAll(Arrays.asList("a", "x")));
            CHECKS.equal("seven", 9L, cache.unloadAll(names.subList(0, 7)));
            refused("gone", Status.NO_LOADER, () -> cache.unload("g"));
            CHECKS.equal("one", 10L, cache.unloadAll(Collections.singleton("h")));
        }
    }

    private static void runsOutOfRoom() throws Exception {
        try (ClassCache cache = ClassCache.open(path("region"), SMALL.roots(3, 1).slots(256))) {
            cache.addLoader("app");
            refused("longer than a root", Status.RECORD_TOO_LONG,
                    () -> cache.define("app", Samples.padded("A", 9000)));
            cache.define("app", Samples.padded("A", 8000));
            refused("a full file", Status.REGION_FULL,
                    () -> cache.define("app", Samples.padded("B", 8000)));
            refused("longer than any record", Status.RECORD_TOO_LONG,
                    () -> cache.define("app", Samples.padded("B", 8 * 524288)));
        }
        try (ClassCache cache = ClassCache.open(path("journal"), SMALL.roots(3, 1).slots(256))) {
            for (int at = 0; at < 128; at++) {
                cache.addLoader("l" + at);
            }
            refused("a full journal", Status.JOURNAL_FULL, () -> cache.addLoader("more"));
            refused("for classes too", Status.JOURNAL_FULL, () -> cache.define("l0", A));
        }
        fresh("spent").close();
        try (RandomAccessFile file = new RandomAccessFile(path("spent").toFile(), "rw")) {
            file.seek(4096 + 16 + 7);
            file.write(0x80);
        }
        try (ClassCache cache = ClassCache.open(path("spent"))) {
            refused("the last number", Status.NUMBERS_SPENT, () -> cache.addLoader("app"));
        }
    }

    // ---- listing, and files that are only read

    private static void lists() throws Exception {
        Path path = path("listed");
        try (ClassCache cache = fresh("listed")) {
            CHECKS.equal("no loaders", Collections.emptyList(), cache.loaders());
            for (String loader : Arrays.asList("ext", "app", "empty")) {
                cache.addLoader(loader);
            }
            for (String name : Arrays.asList("p/B", "A", "p/A", "\ud83d\ude00", "\u00e4")) {
                cache.submitDefine("app", Samples.named(name));
            }
            cache.submitDefine("ext", A);
            isListed(cache);
            CHECKS.threw("null", NullPointerException.class, () -> cache.classes(null));
            refusedToRead("open to write", Status.BUSY, path);
        }
        try (ClassCache cache = ClassCache.openReadOnly(path);
                ClassCache other = ClassCache.openReadOnly(path)) {
            isListed(cache);
            isListed(other);
            isRead(cache);
            refused("to write while it is read", Status.BUSY, () -> ClassCache.open(path));
        }
        ClassCache closed = ClassCache.openReadOnly(path);
        closed.close();
        closed.close();
        for (Checks.Call call : Arrays.<Checks.Call>asList(closed::loaders,
                () -> closed.classes("app"), () -> closed.find("app", "A"), closed::stats,
                () -> closed.addLoader("new"))) {
            CHECKS.threw("closed, only read", IllegalStateException.class, call);
        }
        CHECKS.threw("no path to read", NullPointerException.class,
                () -> ClassCache.openReadOnly(null));
    }

    private static void readsOthers() throws Exception {
        refusedToRead("a folder to read", Status.NOT_REGULAR, folder);
        refusedToRead("no bytes to read", Status.NOT_A_CACHE, path("empty"));
        CacheException.Damaged thrown = CHECKS.threw("a head to read",
                CacheException.Damaged.class, () -> ClassCache.openReadOnly(path("head")));
        CHECKS.that("which is damaged", thrown != null && thrown.what() == What.HEAD);
        Path older = path("older");
        try (InputStream from = new GZIPInputStream(
                Files.newInputStream(Paths.get("tests/data/older_full.gz")))) {
            Files.copy(from, older);
        }
        List<String> loaders;
        try (ClassCache cache = ClassCache.openReadOnly(older)) {
            loaders = cache.loaders();
            CHECKS.that("a file of version 1 has loaders", !loaders.isEmpty());
        }
        try (ClassCache cache = ClassCache.open(older)) {
            CHECKS.equal("the same once it is upgraded", loaders, cache.loaders());
        }
    }

    /** A record that isn't one any more: a cache isn't opened, and of a view it isn't found. */
    private static void findsDamage() throws Exception {
        Path path = path("record");
        try (ClassCache cache = fresh("record")) {
            cache.addLoader("app");
            cache.define("app", A);
            cache.define("app", Samples.named("B"));
        }
        byte[] file = Files.readAllBytes(path);
        byte[] head = {0x10, 0, 0, 0, 0, 0, 0, 0, 0x21, 0, 1, 0, 3, 0};
        int at = 4096;
        while (!Arrays.equals(head, Arrays.copyOfRange(file, at, at + head.length))) {
            at += 8;
        }
        file[at + 24] = 9; // where the directory begins
        Files.write(path, file);
        CacheException.Damaged thrown = CHECKS.threw("a damaged record",
                CacheException.Damaged.class, () -> ClassCache.open(path));
        CHECKS.that("is named", thrown != null && thrown.what() == What.RECORD);
        try (ClassCache cache = ClassCache.openReadOnly(path)) {
            UncheckedIOException found = CHECKS.threw("and isn't found",
                    UncheckedIOException.class, () -> cache.find("app", "A"));
            CHECKS.that("as it is damaged", found != null
                    && ((CacheException) found.getCause()).status() == Status.DAMAGED);
            CHECKS.that("the other one is", cache.find("app", "B").isPresent());
            CHECKS.equal("both are listed", Arrays.asList("A", "B"), cache.classes("app"));
        }
    }

    private static void refusedToRead(String name, Status status, Path path) {
        refused(name, status, () -> ClassCache.openReadOnly(path));
    }

    private static void isListed(ClassCache cache) {
        CHECKS.equal("loaders", Arrays.asList("app", "empty", "ext"), cache.loaders());
        CHECKS.equal("classes", Arrays.asList("A", "p/A", "p/B", "\u00e4", "\ud83d\ude00"),
                cache.classes("app"));
        CHECKS.equal("others", Arrays.asList("A"), cache.classes("ext"));
        CHECKS.equal("none", Collections.emptyList(), cache.classes("empty"));
        for (String wrong : Arrays.asList("none", "", "a b",
                String.join("", Collections.nCopies(70000, "a")))) {
            CHECKS.equal("no such loader", Collections.emptyList(), cache.classes(wrong));
        }
        for (String name : cache.classes("app")) {
            CHECKS.that("found: " + name, Arrays.equals(Samples.named(name),
                    cache.find("app", name).get().classFile()));
        }
    }

    private static void isRead(ClassCache cache) {
        CHECKS.equal("nothing else is found", Optional.empty(), cache.find("app", "B"));
        CHECKS.that("stats", cache.stats().stored() == 9 && cache.stats().accepted() == 9
                && cache.stats().slots() == 0);
        List<Checks.Call> calls = Arrays.asList(() -> cache.addLoader("a"),
                () -> cache.ensureLoader("app"), () -> cache.define("app", A),
                () -> cache.submitDefine("app", A), () -> cache.unload("app"),
                () -> cache.unloadAll(Collections.singleton("app")), () -> cache.tighten("app"));
        for (Checks.Call call : calls) {
            CHECKS.threw("only read " + calls.indexOf(call), UnsupportedOperationException.class,
                    call);
        }
        nulls(cache);
    }

    // ---- after close

    private static void isOfNoUseOnceClosed() throws Exception {
        ClassCache cache = fresh("closed");
        cache.addLoader("app");
        Pending pending = cache.submitDefine("app", A);
        cache.close();
        cache.close();
        List<Checks.Call> calls = Arrays.asList(() -> cache.addLoader("a"),
                () -> cache.ensureLoader("a"), () -> cache.define("app", A),
                () -> cache.submitDefine("app", A), () -> cache.unload("app"),
                () -> cache.unloadAll(Collections.singleton("app")), () -> cache.tighten("app"),
                () -> cache.find("app", "A"), cache::stats, cache::loaders,
                () -> cache.classes("app"));
        for (Checks.Call call : calls) {
            IllegalStateException thrown = CHECKS.threw("closed " + calls.indexOf(call),
                    IllegalStateException.class, call);
            CHECKS.that("and says so", thrown != null
                    && thrown.getMessage().equals(cache + " is closed"));
        }
        pending.await();
        CHECKS.that("what was pending is stored", pending.isStored());
        CHECKS.equal("its path", path("closed"), cache.path());
        cache.close();
        ClassCache.open(path("closed")).close();
    }

    // ---- a record; what is in it is compared in Beside.java

    private static void readsRecords() throws Exception {
        Samples.Builder builder = new Samples.Builder("p/R");
        builder.attribute("SourceFile", Samples.bytes(to -> to.writeShort(2)));
        builder.attribute("Odd", Samples.ascii("odd bytes"));
        // Longs whose bits look like the tag of one: indexes 9 to 14.
        for (long bits : new long[] {5, 6, 7}) {
            builder.raw(2, to -> {
                to.write(5);
                to.writeLong(bits);
            });
        }
        byte[] file = builder.bytes();
        try (ClassCache cache = fresh("records")) {
            cache.addLoader("app");
            cache.define("app", file);
            ClassRecord record = cache.find("app", "p/R").get();
            CHECKS.that("the class file", Arrays.equals(file, record.classFile()));
            CHECKS.equal("toString", "class p/R", record.toString());
            CHECKS.equal("words", 34, record.wordCount());
            readsConstants(record);
            Attribute odd = record.attributes().get(1);
            ByteBuffer content = odd.content();
            CHECKS.equal("a content", ByteBuffer.wrap(Samples.ascii("odd bytes")), content);
            CHECKS.equal("its length", 9, odd.length());
            CHECKS.equal("its text", "Odd, 9 bytes", odd.toString());
            CHECKS.threw("it is read only", ReadOnlyBufferException.class,
                    () -> content.put(0, (byte) 1));
            CHECKS.threw("behind it", IndexOutOfBoundsException.class, () -> content.get(9));
            CHECKS.threw("no third", IndexOutOfBoundsException.class,
                    () -> record.attributes().get(2));
            CHECKS.threw("none before", IndexOutOfBoundsException.class,
                    () -> record.attributes().get(-1));
            CHECKS.equal("no such", Optional.empty(), record.attribute("Signature"));
            CHECKS.threw("a list that stays", UnsupportedOperationException.class,
                    () -> record.attributes().remove(0));
            CHECKS.equal("no members", 0, record.fields().size() + record.methods().size());
            CHECKS.equal("no field", Optional.empty(), record.field("a", "I"));
            CHECKS.equal("no method", Optional.empty(), record.method("a", "()V"));
            CHECKS.that("no annotations", record.annotations().isEmpty());
            record.classFile()[0] = 0;
            CHECKS.that("a copy is the caller's", Arrays.equals(file, record.classFile()));
        }
    }

    private static void readsConstants(ClassRecord record) {
        CHECKS.equal("constants", 13, record.constantCount());
        for (int none : new int[] {-1, 0, 8, 10, 12, 13, 65536, Integer.MIN_VALUE}) {
            CHECKS.equal("none at " + none, Optional.empty(), record.constant(none));
        }
        CHECKS.equal("a long", 5L, record.constant(7).get().number());
        CHECKS.equal("another", 6L, record.constant(9).get().number());
        CHECKS.equal("a third", 7L, record.constant(11).get().bits());
        CHECKS.equal("a class", "java/lang/Object", record.constant(3).get().text());
        CHECKS.equal("toString", "LONG at 7", record.constant(7).get().toString());
        List<Checks.Call> calls = Arrays.asList(() -> record.constant(7).get().text(),
                () -> record.constant(7).get().owner(), () -> record.constant(7).get().name(),
                () -> record.constant(7).get().descriptor(),
                () -> record.constant(7).get().referenceKind(),
                () -> record.constant(7).get().reference(),
                () -> record.constant(7).get().bootstrapMethod(),
                () -> record.constant(1).get().number(), () -> record.constant(1).get().bits());
        for (Checks.Call call : calls) {
            CHECKS.threw("another kind " + calls.indexOf(call), IllegalStateException.class, call);
        }
    }

    // ---- a device that fails: with a limit of 528384 bytes a file

    private static void meetsALimit() throws Exception {
        ClassCache cache = fresh("limited");
        cache.addLoader("app");
        CacheException.Unsure unsure = CHECKS.threw("a file that can't grow",
                CacheException.Unsure.class, () -> cache.define("app", A));
        CHECKS.that("its number", unsure != null && unsure.number() == 2 && unsure.last() == 2
                && unsure.status() == Status.UNSURE);
        List<Checks.Call> calls = Arrays.asList(() -> cache.define("app", Samples.named("B")),
                () -> cache.submitDefine("app", Samples.named("B")), () -> cache.addLoader("ext"),
                () -> cache.unload("app"), () -> cache.unloadAll(Collections.singleton("app")),
                () -> cache.tighten("app"));
        for (Checks.Call call : calls) {
            refused("broken " + calls.indexOf(call), Status.BROKEN, call);
        }
        CHECKS.that("look-ups go on", cache.find("app", "A").isPresent());
        CHECKS.equal("stats", 1L, cache.stats().stored());
        CacheException.Unsure left = CHECKS.threw("close", CacheException.Unsure.class,
                cache::close);
        CHECKS.that("what wasn't stored", left != null && left.number() == 2 && left.last() == 2);
        cache.close();
        limitSubmitted();
        device("no new file", 27, () -> ClassCache.open(path("large"),
                ClassCache.Options.create()));
        CHECKS.that("and none is left", !Files.exists(path("large")));
    }

    private static void limitSubmitted() throws Exception {
        ClassCache cache = fresh("submitted");
        cache.addLoader("app");
        Pending first = cache.submitDefine("app", A);
        CHECKS.threw("await", CacheException.Unsure.class, first::await);
        CHECKS.that("isn't stored", !first.isStored());
        CHECKS.threw("close", CacheException.Unsure.class, cache::close);
        CacheException.Unsure unsure = CHECKS.threw("await once closed",
                CacheException.Unsure.class, first::await);
        CHECKS.that("its number", unsure != null && unsure.number() == 2);
        CHECKS.equal("what it says",
                "the device failed: command 2 may or may not be stored", unsure.getMessage());
    }

    public static void main(String[] words) throws Exception {
        folder = Paths.get(words[0]);
        if (words.length > 1) {
            meetsALimit();
            CHECKS.finish();
        }
        makesFiles();
        refusesFiles();
        refusesClasses();
        takesCommands();
        submitsCommands();
        checksNames();
        unloadsSeveral();
        runsOutOfRoom();
        lists();
        readsOthers();
        findsDamage();
        isOfNoUseOnceClosed();
        readsRecords();
        CHECKS.finish();
    }
}
