package org.cmcache;

import java.nio.ByteBuffer;

/** An attribute (JVMS 4.7). */
public final class Attribute {
    private final ClassRecord record;
    private final int name;
    private final int at;
    private final int length;

    Attribute(ClassRecord record, int name, int at, int length) {
        this.record = record;
        this.name = name;
        this.at = at;
        this.length = length;
    }

    ClassRecord record() {
        return record;
    }

    /** Where the content begins in the record's runs. */
    int at() {
        return at;
    }

    /**
     * The attribute's name.
     *
     * @return as {@code SourceFile}
     */
    public String name() {
        return record.text(name & 0xffff);
    }

    /**
     * How long the content is.
     *
     * @return how many bytes follow the attribute's length in the class file
     */
    public int length() {
        return length;
    }

    /**
     * The content, as it stands in the class file.
     *
     * @return its bytes, to be read only; the highest byte of a number comes first
     */
    public ByteBuffer content() {
        return ByteBuffer.wrap(record.runs(), at, length).slice().asReadOnlyBuffer();
    }

    @Override
    public String toString() {
        return name() + ", " + length + " bytes";
    }
}
