package org.cmcache;

import java.util.Arrays;

/** Bytes that are written one after another, the highest of a number first. */
final class ByteWriter {
    private final byte[] room;
    private int length;

    /** @param room how many bytes are written at most */
    ByteWriter(int room) {
        this.room = new byte[room];
    }

    void one(int value) {
        room[length++] = (byte) value;
    }

    void two(int value) {
        one(value >>> 8);
        one(value);
    }

    void four(int value) {
        two(value >>> 16);
        two(value);
    }

    void eight(long value) {
        four((int) (value >>> 32));
        four((int) value);
    }

    void bytes(byte[] from, int at, int count) {
        System.arraycopy(from, at, room, length, count);
        length += count;
    }

    /** What was written. */
    byte[] bytes() {
        return Arrays.copyOf(room, length);
    }
}
