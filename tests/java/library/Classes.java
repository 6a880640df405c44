import java.io.IOException;
import java.io.InputStream;
import java.io.UncheckedIOException;
import java.nio.file.Files;
import java.nio.file.Path;
import java.nio.file.Paths;
import java.util.ArrayList;
import java.util.Collections;
import java.util.LinkedHashMap;
import java.util.List;
import java.util.Map;
import java.util.stream.Collectors;
import java.util.stream.Stream;
import java.util.zip.ZipEntry;
import java.util.zip.ZipFile;

/** The class files of version 52.0 in jars and folders, the first of each name. */
final class Classes {
    private Classes() {}

    /** By the names that the paths inside give them. */
    static Map<String, byte[]> in(List<String> paths) throws IOException {
        Map<String, byte[]> found = new LinkedHashMap<>();
        for (String text : paths) {
            Path path = Paths.get(text);
            if (Files.isDirectory(path)) {
                inFolder(path, found);
            } else {
                inJar(path, found);
            }
        }
        return found;
    }

    private static void inFolder(Path folder, Map<String, byte[]> found) throws IOException {
        List<Path> files;
        try (Stream<Path> all = Files.walk(folder)) {
            files = all.filter(Files::isRegularFile).sorted().collect(Collectors.toList());
        }
        for (Path file : files) {
            add(folder.relativize(file).toString(), Files.readAllBytes(file), found);
        }
    }

    private static void inJar(Path path, Map<String, byte[]> found) throws IOException {
        try (ZipFile jar = new ZipFile(path.toFile())) {
            List<? extends ZipEntry> entries = new ArrayList<>(Collections.list(jar.entries()));
            for (ZipEntry entry : entries) {
                if (!entry.getName().startsWith("META-INF/")
                        && entry.getName().endsWith(".class")) {
                    add(entry.getName(), bytes(jar, entry), found);
                }
            }
        }
    }

    private static byte[] bytes(ZipFile jar, ZipEntry entry) {
        byte[] bytes = new byte[(int) entry.getSize()];
        try (InputStream from = jar.getInputStream(entry)) {
            int at = 0;
            while (at < bytes.length) {
                at += from.read(bytes, at, bytes.length - at);
            }
            return bytes;
        } catch (IOException e) {
            throw new UncheckedIOException(e);
        }
    }

    private static void add(String path, byte[] bytes, Map<String, byte[]> found) {
        boolean is52 = path.endsWith(".class") && bytes.length > 8
                && (bytes[4] | bytes[5] | bytes[6]) == 0 && bytes[7] == 52;
        if (is52) {
            found.putIfAbsent(path.substring(0, path.length() - ".class".length()), bytes);
        }
    }
}
