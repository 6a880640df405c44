package org.cmcache;

import java.io.ByteArrayOutputStream;
import java.io.UncheckedIOException;
import java.nio.charset.StandardCharsets;
import java.nio.file.FileSystems;
import java.nio.file.Path;
import java.util.ArrayList;
import java.util.Collection;
import java.util.Collections;
import java.util.List;
import java.util.Objects;
import java.util.Optional;
import java.util.concurrent.locks.ReentrantReadWriteLock;

/**
 * A cache of class metadata in a file. It holds class loaders, by names of the caller's choice, and
 * the classes that each of them has defined, as {@link ClassRecord}s.
 *
 * <pre>{@code
 * try (ClassCache cache = ClassCache.open(path, ClassCache.Options.create())) {
 *     cache.ensureLoader("app");
 *     Pending stored = cache.submitDefine("app", classBytes);
 *     Optional<ClassRecord> main = cache.find("app", "com/acme/Main");
 *     stored.await();
 * }
 * }</pre>
 *
 * <p>Any number of threads use a cache at once. A command, as {@link #define}, returns once it is
 * stored, so that no crash loses it; commands of threads that wait at the same time are stored
 * together. {@link #submitDefine} returns once its command is accepted.
 *
 * <p>One process at a time has a file open. A file that stays open in a process that forgets to
 * close it is locked until the process ends. Once a cache is closed each call throws an
 * {@link IllegalStateException}, apart from {@link #close} and {@link #toString}; records and
 * {@link Pending} commands stay of use.
 *
 * <p>A null argument is a {@link NullPointerException}, and changes nothing.
 */
public final class ClassCache implements AutoCloseable {
    /** Statuses of the library that are no {@link CacheException}. */
    private static final int OK = 0;
    private static final int NO_MEMORY = 9;

    private final Path path;
    private final long handle;

    /** Whether the file is only read: then the handle is that of a view. */
    private final boolean isView;

    /** Calls share it, so that none runs while the cache is closed. */
    private final ReentrantReadWriteLock use = new ReentrantReadWriteLock();

    private boolean isClosed;

    /** Once it is closed: the last command that is known to be stored. */
    private long storedAtEnd;

    private ClassCache(Path path, long handle, boolean isView) {
        this.path = path;
        this.handle = handle;
        this.isView = isView;
    }

    // ---- a file

    /**
     * Opens the cache in a file that is there.
     *
     * @param path leads to the file, in the default file system
     * @return the cache, which the caller closes
     * @throws CacheException if the file is in use (BUSY), is damaged
     *     ({@link CacheException.Damaged}), is no cache (NOT_A_CACHE, NOT_REGULAR, TOO_LONG), or
     *     can't be read ({@link CacheException.Device})
     */
    public static ClassCache open(Path path) throws CacheException {
        return open(path, false);
    }

    /**
     * Opens the cache in a file that is there, only to read it. It is open within milliseconds,
     * since a record is checked when it is first found. Any number of processes may have a file
     * open so; meanwhile none has it open to write. The file may be where nothing can be written.
     *
     * <p>Each command is an {@link UnsupportedOperationException}. The file is read as long as the
     * cache is open: if somebody cuts it meanwhile, in spite of the lock, or its device fails, the
     * system ends the process.
     *
     * @param path leads to the file, in the default file system
     * @return the cache, which the caller closes
     * @throws CacheException as {@link #open(Path)}; BUSY if a process has it open to write
     */
    public static ClassCache openReadOnly(Path path) throws CacheException {
        return open(path, true);
    }

    private static ClassCache open(Path path, boolean isView) throws CacheException {
        long[] told = new long[Native.MOST_TOLD];
        check(Native.open(bytes(path), isView, told), path, told);
        return new ClassCache(path, told[0], isView);
    }

    /**
     * Opens the cache in a file, and makes the file first if nothing has its name.
     *
     * @param path leads to the file, in the default file system
     * @param options the sizes of a new file
     * @return the cache, which the caller closes
     * @throws CacheException as {@link #open(Path)}, and if the sizes are outside their limits
     *     (BAD_SIZES) or the file can't be made ({@link CacheException.Device})
     */
    public static ClassCache open(Path path, Options options) throws CacheException {
        Objects.requireNonNull(options, "options");
        long[] told = new long[Native.MOST_TOLD];
        int status = Native.format(bytes(path), options.top, options.roots, options.slots, told);
        if (status != CacheException.Status.EXISTS.code()) {
            check(status, path, told);
        }
        return open(path);
    }

    /**
     * The path's bytes, whatever the locale: its URI spells those that aren't ASCII by number, and
     * ends with a slash if a folder is there.
     */
    private static byte[] bytes(Path path) {
        if (path.getFileSystem() != FileSystems.getDefault()) {
            throw new IllegalArgumentException(path + " isn't in the default file system");
        }
        String text = path.toUri().getRawPath();
        int length = text.endsWith("/") ? text.length() - 1 : text.length();
        ByteArrayOutputStream to = new ByteArrayOutputStream();
        for (int at = 0; at < length; at++) {
            if (text.charAt(at) == '%') {
                to.write(Integer.parseInt(text.substring(at + 1, at + 3), 16));
                at += 2;
            } else {
                to.write(text.charAt(at));
            }
        }
        return to.toByteArray();
    }

    /**
     * The tag of jars, folders and class files as they are now, by which a server knows whether
     * they have changed: {@code cm_import --tag} puts it behind a loader's name and an {@code @}.
     * Of a jar only the directory is read.
     *
     * @param paths where the classes are, in the order of the class path
     * @return 16 hexadecimal digits
     * @throws CacheException if a path can't be read ({@link CacheException.Device}, NO_FILE,
     *     NOT_ALLOWED), or is something else (NOT_REGULAR, TOO_LONG)
     */
    public static String tag(List<Path> paths) throws CacheException {
        byte[][] names = new byte[paths.size()][];
        for (int at = 0; at < names.length; at++) {
            names[at] = bytes(paths.get(at));
        }
        byte[] digits = new byte[16];
        long[] told = new long[Native.MOST_TOLD];
        check(Native.tag(names, digits, told), paths, told);
        return new String(digits, StandardCharsets.US_ASCII);
    }

    /** The sizes of a file that is made; those of a file that is there stay as they are. */
    public static final class Options {
        private final int top;
        private final int roots;
        private final int slots;

        private Options(int top, int roots, int slots) {
            this.top = top;
            this.roots = roots;
            this.slots = slots;
        }

        /**
         * The largest sizes: 32,768 loaders and classes, in up to 256 roots of 4 MiB. A new file
         * has 8 MiB, and grows by a root.
         *
         * @return the sizes
         */
        public static Options create() {
            return new Options(12, 256, 65536);
        }

        /**
         * Other roots, which hold the records.
         *
         * @param top a root has 1,024 * 2^top bytes; 3 to 12
         * @param roots how many the file may have; 1 to 256
         * @return these sizes with other roots
         */
        public Options roots(int top, int roots) {
            return new Options(top, roots, slots);
        }

        /**
         * Another journal.
         *
         * @param slots of each half, twice as many as loaders and classes may live; 256 to 65,536
         * @return these sizes with another journal
         */
        public Options slots(int slots) {
            return new Options(top, roots, slots);
        }
    }

    /**
     * Closes the cache, once the calls that run have returned: all that was accepted is stored,
     * unless the device failed. The cache is closed whatever this throws. Closing it again does
     * nothing.
     *
     * @throws CacheException if the device failed since the cache was opened:
     *     {@link CacheException.Unsure} with the commands that were accepted and may not be stored,
     *     {@link CacheException.Device} if there are none
     */
    @Override
    public void close() throws CacheException {
        use.writeLock().lock();
        try {
            if (isClosed) {
                return;
            }
            isClosed = true;
            closeNow();
        } finally {
            use.writeLock().unlock();
        }
    }

    private void closeNow() throws CacheException {
        if (isView) {
            Native.closeView(handle);
            return;
        }
        long[] told = new long[Native.MOST_TOLD];
        Native.stats(handle, told);
        long accepted = told[0];
        Native.await(handle, accepted); // all is stored, or the device has failed
        Native.stored(handle, told);
        storedAtEnd = told[0];
        int status = Native.close(handle, told);
        if (storedAtEnd != accepted) {
            throw new CacheException.Unsure(storedAtEnd + 1, accepted);
        }
        check(status, path, told);
    }

    /** Begins a command; it ends with {@link #leave}. */
    private void enterToWrite() {
        enter();
        if (isView) {
            leave();
            throw new UnsupportedOperationException(this + " is only read");
        }
    }

    /** Begins a call; it ends with {@link #leave}. */
    private void enter() {
        use.readLock().lock();
        if (isClosed) {
            use.readLock().unlock();
            throw new IllegalStateException(this + " is closed");
        }
    }

    private void leave() {
        use.readLock().unlock();
    }

    // ---- commands

    /**
     * Adds a loader.
     *
     * @param loader its name
     * @return the command's number
     * @throws CacheException if it is refused (BAD_NAME, LOADER_EXISTS, JOURNAL_FULL, BROKEN), or
     *     {@link CacheException.Unsure}
     */
    public long addLoader(String loader) throws CacheException {
        return command(Native.ADD_LOADER, Objects.requireNonNull(loader, "loader"));
    }

    /**
     * Adds a loader unless the cache has it.
     *
     * @param loader its name
     * @return whether it was added
     * @throws CacheException as {@link #addLoader}, but for LOADER_EXISTS
     */
    public boolean ensureLoader(String loader) throws CacheException {
        try {
            addLoader(loader);
            return true;
        } catch (CacheException e) {
            if (e.status() == CacheException.Status.LOADER_EXISTS) {
                return false;
            }
            throw e;
        }
    }

    /**
     * Defines a class in a loader, and waits until it is stored.
     *
     * @param loader the loader's name
     * @param file the class file
     * @return the command's number
     * @throws CacheException if it is refused ({@link CacheException.BadClass}, BAD_NAME,
     *     NO_LOADER, CLASS_EXISTS, RECORD_TOO_LONG, REGION_FULL, JOURNAL_FULL, BROKEN), or
     *     {@link CacheException.Unsure}
     */
    public long define(String loader, byte[] file) throws CacheException {
        return define(loader, file, true);
    }

    /**
     * Defines a class in a loader without a wait: look-ups find it at once, and it will be stored
     * with the commands before it. A crash leaves the commands up to some number.
     *
     * @param loader the loader's name
     * @param file the class file
     * @return the command, which can be waited for
     * @throws CacheException if it is refused, as by {@link #define(String, byte[])}
     */
    public Pending submitDefine(String loader, byte[] file) throws CacheException {
        return new Pending(this, define(loader, file, false));
    }

    private long define(String loader, byte[] file, boolean waits) throws CacheException {
        Objects.requireNonNull(loader, "loader");
        Objects.requireNonNull(file, "file");
        long[] told = new long[Native.MOST_TOLD];
        int status;
        enterToWrite();
        try {
            status = Native.define(handle, loader, file, waits, told);
        } finally {
            leave();
        }
        check(status, loader, told);
        return told[0];
    }

    /** Whether the bytes say that they are a class file of version 52.0. */
    static boolean isOfVersion52(byte[] file) {
        return file.length >= 8 && (file[4] | file[5] | file[6]) == 0 && file[7] == 52;
    }

    /**
     * Unloads a loader with its classes.
     *
     * @param loader its name
     * @return the command's number
     * @throws CacheException if it is refused (BAD_NAME, NO_LOADER, BROKEN), or
     *     {@link CacheException.Unsure}
     */
    public long unload(String loader) throws CacheException {
        return command(Native.UNLOAD, Objects.requireNonNull(loader, "loader"));
    }

    /**
     * Unloads one to seven loaders: all of them, also after a crash, or none.
     *
     * @param loaders their names
     * @return the command's number
     * @throws CacheException if it is refused (BAD_NAME, NO_LOADER, BAD_LIST, BROKEN), or
     *     {@link CacheException.Unsure}
     */
    public long unloadAll(Collection<String> loaders) throws CacheException {
        for (String loader : loaders) {
            if (loader.isEmpty() || loader.indexOf(' ') >= 0) {
                throw CacheException.of(CacheException.Status.BAD_NAME, loader);
            }
        }
        return command(Native.UNLOAD_ALL, String.join(" ", loaders));
    }

    /**
     * Compacts a loader: moves the records on its last chunk to a better one.
     *
     * @param loader its name
     * @return the command's number
     * @throws CacheException if it is refused (BAD_NAME, NO_LOADER, NO_MOVE, JOURNAL_FULL, BROKEN),
     *     or {@link CacheException.Unsure}
     */
    public long tighten(String loader) throws CacheException {
        return command(Native.TIGHTEN, Objects.requireNonNull(loader, "loader"));
    }

    private long command(int which, String loaders) throws CacheException {
        long[] told = new long[Native.MOST_TOLD];
        int status;
        enterToWrite();
        try {
            status = Native.command(handle, which, loaders, told);
        } finally {
            leave();
        }
        check(status, loaders, told);
        return told[0];
    }

    /** Throws what a status other than OK means. */
    private static void check(int status, Object what, long[] told) throws CacheException {
        if (status == OK) {
            return;
        }
        if (status == NO_MEMORY) {
            throw new OutOfMemoryError("cmcache: out of memory");
        }
        CacheException.Status found = CacheException.Status.of(status);
        switch (found) {
            case DAMAGED:
                throw new CacheException.Damaged(what,
                        CacheException.Damaged.What.values()[(int) told[0] - 1], (int) told[1]);
            case BAD_CLASS:
                throw badClass(told);
            case DEVICE:
                throw new CacheException.Device(what, (int) told[0]);
            case UNSURE:
                throw new CacheException.Unsure(told[0], told[0]);
            default:
                throw CacheException.of(found, what);
        }
    }

    private static CacheException badClass(long[] told) {
        CacheException.BadClass.Why why = CacheException.BadClass.Why.values()[(int) told[0] - 1];
        boolean isRule = why == CacheException.BadClass.Why.RULE;
        return new CacheException.BadClass(why, isRule ? (int) told[1] : 0,
                isRule ? CacheException.BadClass.Spot.values()[(int) told[2] - 1] : null, told[3]);
    }

    /** The last command that is known to be stored; that of a closed cache stays. */
    long stored() {
        use.readLock().lock();
        try {
            if (isClosed) {
                return storedAtEnd;
            }
            long[] told = new long[Native.MOST_TOLD];
            Native.stored(handle, told);
            return told[0];
        } finally {
            leave();
        }
    }

    void await(long number) throws CacheException {
        use.readLock().lock();
        try {
            boolean isStored = isClosed ? Long.compareUnsigned(number, storedAtEnd) <= 0
                    : Native.await(handle, number) == OK;
            if (!isStored) {
                throw new CacheException.Unsure(number, number);
            }
        } finally {
            leave();
        }
    }

    // ---- look-ups

    /**
     * The record of a class as accepted, which may be before it is stored. It is a copy: it stays
     * as it is when the class is unloaded and the cache closed.
     *
     * @param loader the loader's name
     * @param name the class's name in internal form, as {@code java/lang/Object}
     * @return the record, if the loader is there and has the class
     * @throws UncheckedIOException with a {@link CacheException} (DAMAGED) if the file is only read
     *     and what it has by this name isn't the record of a class that keeps the rules
     */
    public Optional<ClassRecord> find(String loader, String name) {
        Objects.requireNonNull(loader, "loader");
        Objects.requireNonNull(name, "name");
        Object[] found = new Object[2];
        int status;
        enter();
        try {
            status = Native.find(handle, isView, loader, name, found);
        } finally {
            leave();
        }
        if (status == OK) {
            return Optional.of(new ClassRecord((long[]) found[0], (byte[]) found[1]));
        }
        checkLookUp(status, name);
        return Optional.empty();
    }

    /** Throws what a look-up's status means, unless it is that there is none. */
    private void checkLookUp(int status, String name) {
        if (status == NO_MEMORY) {
            throw new OutOfMemoryError("cmcache: out of memory");
        }
        if (status == CacheException.Status.DAMAGED.code()) {
            throw new UncheckedIOException(CacheException.of(CacheException.Status.DAMAGED,
                    path + ", " + name));
        }
    }

    /**
     * The loaders, as they are at one moment during the call.
     *
     * @return their names, in byte order
     */
    public List<String> loaders() {
        return names(null);
    }

    /**
     * The classes of a loader, as they are at one moment during the call.
     *
     * @param loader the loader's name
     * @return their names, in byte order; none if there is no such loader
     */
    public List<String> classes(String loader) {
        return names(Objects.requireNonNull(loader, "loader"));
    }

    private List<String> names(String loader) {
        byte[][] found = new byte[1][];
        int status;
        enter();
        try {
            status = Native.names(handle, isView, loader, found);
        } finally {
            leave();
        }
        checkLookUp(status, loader);
        List<String> names = status == OK ? ModifiedUtf8.decodeAll(found[0]) : new ArrayList<>();
        Collections.sort(names); // a view gives classes in no order
        return names;
    }

    /**
     * How far the cache is, and its sizes.
     *
     * @return the state at this moment
     */
    public CacheStats stats() {
        long[] told = new long[Native.MOST_TOLD];
        enter();
        try {
            if (isView) {
                Native.viewStats(handle, told);
            } else {
                Native.stats(handle, told);
            }
        } finally {
            leave();
        }
        return new CacheStats(told);
    }

    /**
     * The file that it was opened by.
     *
     * @return the path, as it was given
     */
    public Path path() {
        return path;
    }

    @Override
    public String toString() {
        return "cache " + path;
    }
}
