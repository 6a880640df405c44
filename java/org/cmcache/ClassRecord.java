package org.cmcache;

import java.util.AbstractList;
import java.util.ArrayList;
import java.util.Collections;
import java.util.List;
import java.util.Optional;

/**
 * A class as its class file says it: constants, members, attributes and bytecode. A record is a
 * copy in Java's memory. It never changes, and any thread may use it at any time.
 *
 * <p>Parts are read when they are asked for. Names are in the form of class files: classes as
 * {@code java/lang/Object}, types as {@code Ljava/lang/Object;}.
 *
 * <p>docs/RECORD.md describes the words that it is made from.
 */
public final class ClassRecord extends Attributed {
    private static final int DIRECTORY = 8;

    /** The words before the runs. */
    private final long[] head;

    /** The bytes of names and attributes. */
    private final byte[] runs;

    /** Strings of the pool that were asked for. */
    private final String[] texts;

    ClassRecord(long[] head, byte[] runs) {
        this.head = head;
        this.runs = runs;
        this.texts = new String[poolCount()];
    }

    // ---- the words

    private static int part(long word, int low) {
        return (int) (word >>> low) & 0xffff;
    }

    private static int upper(long word) {
        return (int) (word >>> 32);
    }

    private int poolCount() {
        return part(head[2], 0);
    }

    private int membersAt() {
        return (int) head[5];
    }

    private int attributesAt() {
        return (int) head[6];
    }

    byte[] runs() {
        return runs;
    }

    /** Where a run begins in {@link #runs}. */
    private int run(int offset) {
        return 8 * (offset - (int) head[7]);
    }

    private long slot(int index) {
        return head[DIRECTORY + index];
    }

    // ---- constants

    /** The Utf8 at an index. The rules on classes say that one stands where one belongs. */
    String text(int index) {
        String text = texts[index];
        if (text == null) {
            long word = slot(index);
            text = ModifiedUtf8.decode(runs, run(upper(word)), part(word, 16));
            texts[index] = text;
        }
        return text;
    }

    /** The name of the Class at an index. */
    String className(int index) {
        return text(upper(slot(index)));
    }

    /**
     * Whether an index is the second one of a Long or a Double: a word before it is exactly 5 or 6,
     * and so may be the bits of one; the first of those that follow each other isn't.
     */
    private boolean isSecond(int index) {
        int before = index;
        while (before > 1 && (slot(before - 1) == 5 || slot(before - 1) == 6)) {
            before--;
        }
        return (index - before) % 2 == 1;
    }

    /**
     * How many indexes the constant pool has, with the unused index 0: its count in the class file.
     *
     * @return 1 to 65,535
     */
    public int constantCount() {
        return poolCount();
    }

    /**
     * A constant of the pool.
     *
     * @param index 1 to the count less one
     * @return the constant; empty for the second index of a Long or a Double, and for an index that
     *     the pool doesn't have
     */
    public Optional<Constant> constant(int index) {
        if (index < 1 || index >= poolCount() || isSecond(index)) {
            return Optional.empty();
        }
        long word = slot(index);
        long bits = index + 1 < poolCount() ? slot(index + 1) : 0;
        return Optional.of(new Constant(this, index, word, bits));
    }

    /** The constant at an index that has one. */
    Constant constantAt(int index) {
        return constant(index).orElseThrow(IndexOutOfBoundsException::new);
    }

    // ---- the class

    /**
     * The class's access flags (JVMS table 4.1-B).
     *
     * @return 16 bits
     */
    public int accessFlags() {
        return part(head[1], 0);
    }

    /**
     * The class's name.
     *
     * @return as {@code com/acme/Main}
     */
    public String name() {
        return className(part(head[1], 16));
    }

    /**
     * The name of the super class.
     *
     * @return as {@code java/lang/Object}; empty for {@code java/lang/Object} itself
     */
    public Optional<String> superName() {
        int index = part(head[1], 32);
        return index == 0 ? Optional.empty() : Optional.of(className(index));
    }

    /**
     * The names of the interfaces that the class names directly, in their order.
     *
     * @return the names, in a list that can't be changed
     */
    public List<String> interfaces() {
        int count = part(head[1], 48);
        if (count == 0) {
            return Collections.emptyList();
        }
        int at = (int) head[4];
        List<String> names = new ArrayList<>(count);
        for (int which = 0; which < count; which++) {
            names.add(className((int) head[at + which]));
        }
        return Collections.unmodifiableList(names);
    }

    // ---- members

    /**
     * The fields, in the order of the class file.
     *
     * @return a list that can't be changed
     */
    public List<Member> fields() {
        return members(0, fieldCount(), false);
    }

    /**
     * The methods, in the order of the class file; constructors and initializers are among them.
     *
     * @return a list that can't be changed
     */
    public List<Member> methods() {
        return members(fieldCount(), methodCount(), true);
    }

    private int fieldCount() {
        return part(head[2], 16);
    }

    private int methodCount() {
        return part(head[2], 32);
    }

    private List<Member> members(int from, int count, boolean isMethod) {
        if (count == 0) {
            return Collections.emptyList();
        }
        List<Member> members = new ArrayList<>(count);
        for (int at = membersAt() + 2 * from; members.size() < count; at += 2) {
            long word = head[at];
            members.add(new Member(this, isMethod, part(word, 0), part(word, 16),
                    part(word, 32), (int) head[at + 1], part(word, 48)));
        }
        return Collections.unmodifiableList(members);
    }

    /**
     * The field of a name and descriptor.
     *
     * @param name its name
     * @param descriptor its descriptor, as {@code Ljava/lang/String;}
     * @return the field, if the class declares it
     */
    public Optional<Member> field(String name, String descriptor) {
        return first(fields(), name, descriptor);
    }

    /**
     * The method of a name and descriptor.
     *
     * @param name its name
     * @param descriptor its descriptor, as {@code (I)V}
     * @return the method, if the class declares it
     */
    public Optional<Member> method(String name, String descriptor) {
        return first(methods(), name, descriptor);
    }

    private static Optional<Member> first(List<Member> among, String name, String descriptor) {
        for (Member member : among) {
            if (member.name().equals(name) && member.descriptor().equals(descriptor)) {
                return Optional.of(member);
            }
        }
        return Optional.empty();
    }

    // ---- attributes

    @Override
    public List<Attribute> attributes() {
        int count = part(head[2], 48);
        int members = fieldCount() + methodCount();
        int before = 0;
        for (int which = 0; which < members; which++) {
            before += part(head[membersAt() + 2 * which], 48);
        }
        return attributes(attributesAt() + 2 * before, count);
    }

    /** So many attributes from an offset on, each of which is made when it is asked for. */
    List<Attribute> attributes(int offset, int count) {
        return new AbstractList<Attribute>() {
            @Override
            public Attribute get(int which) {
                if (which < 0 || which >= count) {
                    throw new IndexOutOfBoundsException(which + " of " + count);
                }
                int at = offset + 2 * which;
                return new Attribute(ClassRecord.this, (int) head[at], run((int) head[at + 1]),
                        upper(head[at]));
            }

            @Override
            public int size() {
                return count;
            }
        };
    }

    @Override
    ClassRecord record() {
        return this;
    }

    // ---- the class file

    /**
     * The class file from which the class was defined, byte for byte.
     *
     * @return the bytes, which the caller may change
     */
    public byte[] classFile() {
        // No part takes more bytes in the file than in the record.
        ByteWriter to = new ByteWriter(8 * head.length + runs.length);
        to.four(0xcafebabe);
        to.four(52);
        to.two(poolCount());
        spellConstants(to);
        to.two(accessFlags());
        to.two(part(head[1], 16));
        to.two(part(head[1], 32));
        int interfaces = part(head[1], 48);
        to.two(interfaces);
        for (int which = 0; which < interfaces; which++) {
            to.two((int) head[(int) head[4] + which]);
        }
        int attribute = attributesAt();
        attribute = spellMembers(to, 0, fieldCount(), attribute);
        attribute = spellMembers(to, fieldCount(), methodCount(), attribute);
        spellAttributes(to, attribute, part(head[2], 48));
        return to.bytes();
    }

    private void spellConstants(ByteWriter to) {
        int count = poolCount();
        for (int index = 1; index < count; index++) {
            long word = slot(index);
            int tag = (int) word & 0xff;
            to.one(tag);
            switch (Constant.Kind.of(tag).form()) {
                case BYTES:
                    to.two(part(word, 16));
                    to.bytes(runs, run(upper(word)), part(word, 16));
                    break;
                case FOUR:
                    to.four(upper(word));
                    break;
                case EIGHT:
                    index++;
                    to.eight(slot(index));
                    break;
                case INDEX:
                    to.two(upper(word));
                    break;
                case KIND_AND_INDEX:
                    to.one(part(word, 32));
                    to.two(part(word, 48));
                    break;
                default:
                    to.two(part(word, 32));
                    to.two(part(word, 48));
            }
        }
    }

    /** Spells members whose attributes follow those before them; where the next ones stand. */
    private int spellMembers(ByteWriter to, int from, int count, int attribute) {
        int next = attribute;
        to.two(count);
        for (int which = from; which < from + count; which++) {
            long word = head[membersAt() + 2 * which];
            to.two(part(word, 0));
            to.two(part(word, 16));
            to.two(part(word, 32));
            int attributes = part(word, 48);
            spellAttributes(to, next, attributes);
            next += 2 * attributes;
        }
        return next;
    }

    private void spellAttributes(ByteWriter to, int offset, int count) {
        to.two(count);
        for (int at = offset; at < offset + 2 * count; at += 2) {
            int length = upper(head[at]);
            to.two((int) head[at]);
            to.four(length);
            to.bytes(runs, run((int) head[at + 1]), length);
        }
    }

    /**
     * How many words of 8 bytes the record has, as the programs print it.
     *
     * @return 16 at least
     */
    public int wordCount() {
        return (int) head[0];
    }

    @Override
    public String toString() {
        return "class " + name();
    }
}
