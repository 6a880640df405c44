package org.cmcache;

import java.util.List;
import java.util.Optional;

/** A field or a method of a class (JVMS 4.5, 4.6). */
public final class Member extends Attributed {
    private final ClassRecord record;
    private final boolean isMethod;
    private final int flags;
    private final int name;
    private final int descriptor;
    private final int attributesAt;
    private final int attributeCount;

    Member(ClassRecord record, boolean isMethod, int flags, int name, int descriptor,
            int attributesAt, int attributeCount) {
        this.record = record;
        this.isMethod = isMethod;
        this.flags = flags;
        this.name = name;
        this.descriptor = descriptor;
        this.attributesAt = attributesAt;
        this.attributeCount = attributeCount;
    }

    @Override
    ClassRecord record() {
        return record;
    }

    /**
     * Whether it is a method.
     *
     * @return true for a method, false for a field
     */
    public boolean isMethod() {
        return isMethod;
    }

    /**
     * Its access flags (JVMS tables 4.5-A and 4.6-A).
     *
     * @return 16 bits
     */
    public int accessFlags() {
        return flags;
    }

    /**
     * Its name.
     *
     * @return as {@code toString}, or {@code <init>} of a constructor
     */
    public String name() {
        return record.text(name);
    }

    /**
     * Its descriptor (JVMS 4.3).
     *
     * @return as {@code Ljava/lang/String;} or {@code (I)V}
     */
    public String descriptor() {
        return record.text(descriptor);
    }

    @Override
    public List<Attribute> attributes() {
        return record.attributes(attributesAt, attributeCount);
    }

    /**
     * A method's code (JVMS 4.7.3).
     *
     * @return the code; empty for a field, and for a method that is abstract or native
     */
    public Optional<Code> code() {
        return isMethod ? attribute("Code").map(Code::new) : Optional.empty();
    }

    /**
     * The annotations of a method's parameters, visible ones first (JVMS 4.7.18, 4.7.19). The first
     * lists may be of other parameters than the descriptor's first: compilers leave out those that
     * no source has.
     *
     * @return a list for each parameter that the attributes count; empty if there are none
     * @throws MalformedAttributeException if one of the attributes isn't of its form
     */
    public List<List<AnnotationRecord>> parameterAnnotations() {
        return AnnotationReader.ofParameters(this);
    }

    /**
     * The value that an element of an annotation has where none is given (JVMS 4.7.22).
     *
     * @return the value, as in {@link AnnotationRecord#values}; empty if the method has none
     * @throws MalformedAttributeException if the attribute isn't of its form
     */
    public Optional<Object> annotationDefault() {
        return attribute("AnnotationDefault")
                .map(attribute -> new AnnotationReader(attribute).only());
    }

    @Override
    public String toString() {
        return name() + " " + descriptor();
    }
}
