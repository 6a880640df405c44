package org.cmcache;

import java.nio.charset.StandardCharsets;
import java.util.ArrayList;
import java.util.List;

/** The spelling of strings in class files (JVMS 4.4.7). */
final class ModifiedUtf8 {
    /** What Java's own decoder puts in place of bytes that it doesn't take. */
    private static final char REPLACED = '\ufffd';

    private ModifiedUtf8() {}

    /**
     * The string of these bytes, which have the form that the cache requires.
     *
     * <p>Nearly all of them are UTF-8, which Java decodes faster. What isn't, a zero in two bytes
     * and a surrogate in three, Java replaces by a character that tells.
     */
    static String decode(byte[] bytes, int at, int length) {
        String text = new String(bytes, at, length, StandardCharsets.UTF_8);
        return text.indexOf(REPLACED) < 0 ? text : decodeUnits(bytes, at, length);
    }

    /** The strings of bytes that have a 0 behind each of them. */
    static List<String> decodeAll(byte[] bytes) {
        List<String> texts = new ArrayList<>();
        int from = 0;
        for (int at = 0; at < bytes.length; at++) {
            if (bytes[at] == 0) {
                texts.add(decode(bytes, from, at - from));
                from = at + 1;
            }
        }
        return texts;
    }

    private static String decodeUnits(byte[] bytes, int at, int length) {
        char[] units = new char[length];
        int count = 0;
        int next = at;
        while (next < at + length) {
            int first = bytes[next];
            int size = first >= 0 ? 1 : (first & 0x20) == 0 ? 2 : 3;
            units[count++] = unit(bytes, next, size);
            next += size;
        }
        return new String(units, 0, count);
    }

    private static char unit(byte[] bytes, int at, int size) {
        switch (size) {
            case 1:
                return (char) bytes[at];
            case 2:
                return (char) ((bytes[at] & 0x1f) << 6 | bytes[at + 1] & 0x3f);
            default:
                return (char) ((bytes[at] & 0xf) << 12 | (bytes[at + 1] & 0x3f) << 6
                        | bytes[at + 2] & 0x3f);
        }
    }
}
