package org.cmcache;

import java.io.IOException;
import java.io.InputStream;
import java.nio.file.Files;
import java.nio.file.Path;
import java.nio.file.Paths;
import java.nio.file.StandardCopyOption;

/**
 * The calls of jni.c, and the library that has them. Each returns a status of {@code cmcache.h};
 * what belongs to it stands in {@code told}, in the order that jni.c says. No argument is null, and
 * a cache is one that was opened and isn't closed.
 */
final class Native {
    /** Names the library to load, in place of the one in the jar. */
    static final String LIBRARY = "cmcache.library";

    private static final String INSIDE = "linux-x86_64/libcmcache-java.so";

    /** Room for the numbers of any call. */
    static final int MOST_TOLD = 5;

    /** What {@link #command} does. */
    static final int ADD_LOADER = 0;
    static final int UNLOAD = 1;
    static final int UNLOAD_ALL = 2;
    static final int TIGHTEN = 3;

    static {
        load();
    }

    private Native() {}

    private static void load() {
        String path = System.getProperty(LIBRARY);
        if (path != null) {
            System.load(Paths.get(path).toAbsolutePath().toString());
            return;
        }
        String system = System.getProperty("os.name") + " " + System.getProperty("os.arch");
        if (!system.equals("Linux amd64")) {
            throw new UnsatisfiedLinkError("cmcache has a library for Linux on x86-64 alone, and"
                    + " this is " + system + ": name another one by -D" + LIBRARY);
        }
        try {
            loadInside();
        } catch (IOException e) {
            UnsatisfiedLinkError error = new UnsatisfiedLinkError("cmcache's library can't be"
                    + " unpacked into java.io.tmpdir: unpack it from the jar, and name it by -D"
                    + LIBRARY);
            error.initCause(e);
            throw error;
        }
    }

    /** Unpacks the library to a file of its own, which is removed once the system has mapped it. */
    private static void loadInside() throws IOException {
        Path file = Files.createTempFile("cmcache", ".so");
        try (InputStream inside = Native.class.getResourceAsStream(INSIDE)) {
            if (inside == null) {
                throw new IOException(INSIDE + " isn't beside " + Native.class);
            }
            Files.copy(inside, file, StandardCopyOption.REPLACE_EXISTING);
            System.load(file.toString());
        } finally {
            Files.delete(file);
        }
    }

    static native String version();

    static native String statusText(int status);

    /** What the system's number of an error means. */
    static native String causeText(int cause);

    static native int format(byte[] path, int top, int roots, int slots, long[] told);

    static native int open(byte[] path, boolean isView, long[] told);

    static native int close(long cache, long[] told);

    static native void closeView(long view);

    static native int command(long cache, int which, String loaders, long[] told);

    static native int define(long cache, String loader, byte[] file, boolean waits, long[] told);

    static native int await(long cache, long number);

    static native int stored(long cache, long[] told);

    /** The words of a class's record: found[0] has those before its runs, found[1] the runs. */
    static native int find(long handle, boolean isView, String loader, String name,
            Object[] found);

    /** The names of a loader's classes, or if it is null of the loaders, a 0 behind each. */
    static native int names(long handle, boolean isView, String loader, byte[][] names);

    static native int viewStats(long view, long[] told);

    static native int stats(long cache, long[] told);

    /** The 16 digits of the tag of these paths. */
    static native int tag(byte[][] paths, byte[] tag, long[] told);
}
