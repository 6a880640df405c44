package org.cmcache;

/** A constant of a class's pool (JVMS 4.4). */
public final class Constant {
    private final ClassRecord record;
    private final int index;
    private final long word;
    private final long bits;

    Constant(ClassRecord record, int index, long word, long bits) {
        this.record = record;
        this.index = index;
        this.word = word;
        this.bits = bits;
    }

    /** How a constant is spelled after its tag. */
    enum Form { BYTES, FOUR, EIGHT, INDEX, KIND_AND_INDEX, INDEXES }

    /** Kinds of constants, with their tags (JVMS table 4.4-A). */
    public enum Kind {
        /** A text. */
        UTF8(1, Form.BYTES),
        /** An int. */
        INTEGER(3, Form.FOUR),
        /** A float. */
        FLOAT(4, Form.FOUR),
        /** A long, which takes two indexes. */
        LONG(5, Form.EIGHT),
        /** A double, which takes two indexes. */
        DOUBLE(6, Form.EIGHT),
        /** A class. */
        CLASS(7, Form.INDEX),
        /** A string. */
        STRING(8, Form.INDEX),
        /** A field of a class. */
        FIELD(9, Form.INDEXES),
        /** A method of a class. */
        METHOD(10, Form.INDEXES),
        /** A method of an interface. */
        INTERFACE_METHOD(11, Form.INDEXES),
        /** A name and a descriptor. */
        NAME_AND_TYPE(12, Form.INDEXES),
        /** A method handle. */
        METHOD_HANDLE(15, Form.KIND_AND_INDEX),
        /** A method type. */
        METHOD_TYPE(16, Form.INDEX),
        /** A call that is bound when it is first made. */
        INVOKE_DYNAMIC(18, Form.INDEXES);

        private static final Kind[] OF_TAG = new Kind[19];

        static {
            for (Kind kind : values()) {
                OF_TAG[kind.tag] = kind;
            }
        }

        private final int tag;
        private final Form form;

        Kind(int tag, Form form) {
            this.tag = tag;
            this.form = form;
        }

        static Kind of(int tag) {
            return OF_TAG[tag];
        }

        Form form() {
            return form;
        }

        /**
         * The tag in a class file.
         *
         * @return 1 to 18
         */
        public int tag() {
            return tag;
        }
    }

    /**
     * Which kind it is.
     *
     * @return the kind
     */
    public Kind kind() {
        return Kind.of((int) word & 0xff);
    }

    /**
     * Its index in the pool.
     *
     * @return 1 to the pool's count less one
     */
    public int index() {
        return index;
    }

    private IllegalStateException isOther(String asked) {
        return new IllegalStateException("constant " + index + " is a " + kind() + ": " + asked);
    }

    private int first() {
        return (int) (word >>> 32) & 0xffff;
    }

    private int second() {
        return (int) (word >>> 48);
    }

    /**
     * The text of a Utf8, of a String, of a Class its name, and of a MethodType its descriptor.
     *
     * @return the text
     * @throws IllegalStateException if it is of another kind
     */
    public String text() {
        switch (kind()) {
            case UTF8:
                return record.text(index);
            case CLASS:
            case STRING:
            case METHOD_TYPE:
                return record.text(first());
            default:
                throw isOther("it has no text");
        }
    }

    /**
     * The value of an Integer, Float, Long or Double.
     *
     * @return an {@link Integer}, {@link Float}, {@link Long} or {@link Double}; a NaN's bits are
     *     those of {@link #bits}
     * @throws IllegalStateException if it is of another kind
     */
    public Number number() {
        switch (kind()) {
            case INTEGER:
                return (int) (word >>> 32);
            case FLOAT:
                return Float.intBitsToFloat((int) (word >>> 32));
            case LONG:
                return bits;
            case DOUBLE:
                return Double.longBitsToDouble(bits);
            default:
                throw isOther("it has no number");
        }
    }

    /**
     * The bits of an Integer, Float, Long or Double, as they stand in the class file.
     *
     * @return the bits, of an Integer or Float the lower 32
     * @throws IllegalStateException if it is of another kind
     */
    public long bits() {
        switch (kind().form()) {
            case FOUR:
                return word >>> 32;
            case EIGHT:
                return bits;
            default:
                throw isOther("it has no bits");
        }
    }

    /**
     * The class of a field or method.
     *
     * @return its name
     * @throws IllegalStateException if it is of another kind
     */
    public String owner() {
        switch (kind()) {
            case FIELD:
            case METHOD:
            case INTERFACE_METHOD:
                return record.className(first());
            default:
                throw isOther("it has no owner");
        }
    }

    /** The NameAndType of a constant that has one, or is one. */
    private Constant nameAndType() {
        switch (kind()) {
            case NAME_AND_TYPE:
                return this;
            case FIELD:
            case METHOD:
            case INTERFACE_METHOD:
            case INVOKE_DYNAMIC:
                return record.constantAt(second());
            default:
                throw isOther("it has no name and type");
        }
    }

    /**
     * The name in a NameAndType, or of a field, a method or a dynamic call.
     *
     * @return the name
     * @throws IllegalStateException if it is of another kind
     */
    public String name() {
        return record.text(nameAndType().first());
    }

    /**
     * The descriptor in a NameAndType, or of a field, a method or a dynamic call.
     *
     * @return the descriptor
     * @throws IllegalStateException if it is of another kind
     */
    public String descriptor() {
        return record.text(nameAndType().second());
    }

    /**
     * What a method handle does (JVMS table 5.4.3.5-A).
     *
     * @return reference_kind, 1 to 9
     * @throws IllegalStateException if it is of another kind
     */
    public int referenceKind() {
        if (kind() != Kind.METHOD_HANDLE) {
            throw isOther("it has no reference kind");
        }
        return first();
    }

    /**
     * The field or method of a method handle.
     *
     * @return that constant
     * @throws IllegalStateException if it is of another kind
     */
    public Constant reference() {
        if (kind() != Kind.METHOD_HANDLE) {
            throw isOther("it has no reference");
        }
        return record.constantAt(second());
    }

    /**
     * Which row of {@code BootstrapMethods} (JVMS 4.7.23) a dynamic call has.
     *
     * @return the row, from 0
     * @throws IllegalStateException if it is of another kind
     */
    public int bootstrapMethod() {
        if (kind() != Kind.INVOKE_DYNAMIC) {
            throw isOther("it has no bootstrap method");
        }
        return first();
    }

    @Override
    public String toString() {
        return kind() + " at " + index;
    }
}
