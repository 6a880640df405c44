import java.io.ByteArrayOutputStream;
import java.io.DataOutputStream;
import java.io.IOException;
import java.nio.charset.StandardCharsets;
import java.util.ArrayList;
import java.util.List;

/** Class files, written constant by constant. */
final class Samples {
    private Samples() {}

    /** Writes a part of a class file. */
    interface Part {
        void write(DataOutputStream to) throws IOException;
    }

    static byte[] bytes(Part part) {
        ByteArrayOutputStream to = new ByteArrayOutputStream();
        try {
            part.write(new DataOutputStream(to));
        } catch (IOException e) {
            throw new AssertionError(e);
        }
        return to.toByteArray();
    }

    /** Class A of docs/RECORD.md, by another name. */
    static byte[] named(String name) {
        return new Builder(name).bytes();
    }

    /** The same with an attribute X of so many zeros. */
    static byte[] padded(String name, int zeros) {
        Builder builder = new Builder(name);
        builder.attribute("X", new byte[zeros]);
        return builder.bytes();
    }

    /** A class without members, with constants and attributes. */
    static final class Builder {
        private final List<byte[]> constants = new ArrayList<>();
        private final List<byte[]> attributes = new ArrayList<>();
        private int next = 1;
        private int flags = 0x21;

        Builder(String name) {
            raw(1, to -> {
                to.write(7);
                to.writeShort(2);
            });
            utf8(name);
            raw(1, to -> {
                to.write(7);
                to.writeShort(4);
            });
            utf8("java/lang/Object");
        }

        /** Adds a constant that takes this many indexes; its index. */
        int raw(int indexes, Part part) {
            constants.add(Samples.bytes(part));
            next += indexes;
            return next - indexes;
        }

        int utf8(String text) {
            return raw(1, to -> {
                to.write(1);
                to.writeUTF(text);
            });
        }

        Builder flags(int flags) {
            this.flags = flags;
            return this;
        }

        void attribute(String name, byte[] content) {
            int index = utf8(name);
            attributes.add(Samples.bytes(to -> {
                to.writeShort(index);
                to.writeInt(content.length);
                to.write(content);
            }));
        }

        byte[] bytes() {
            return Samples.bytes(to -> {
                to.writeInt(0xcafebabe);
                to.writeInt(52);
                to.writeShort(next);
                for (byte[] constant : constants) {
                    to.write(constant);
                }
                to.writeShort(flags);
                to.writeShort(1);
                to.writeShort(3);
                to.writeShort(0);
                to.writeInt(0);
                to.writeShort(attributes.size());
                for (byte[] attribute : attributes) {
                    to.write(attribute);
                }
            });
        }
    }

    static byte[] ascii(String text) {
        return text.getBytes(StandardCharsets.US_ASCII);
    }
}
