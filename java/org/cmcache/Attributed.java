package org.cmcache;

import java.util.ArrayList;
import java.util.Collections;
import java.util.List;
import java.util.Optional;

/** What has attributes (JVMS 4.7): a class, a member, or code. */
public abstract class Attributed {
    Attributed() {}

    /** The record that it is part of. */
    abstract ClassRecord record();

    /**
     * The attributes, in the order of the class file.
     *
     * @return a list that can't be changed
     */
    public abstract List<Attribute> attributes();

    /**
     * The first attribute of a name.
     *
     * @param name as {@code Signature}
     * @return the attribute, if there is one
     */
    public final Optional<Attribute> attribute(String name) {
        for (Attribute attribute : attributes()) {
            if (attribute.name().equals(name)) {
                return Optional.of(attribute);
            }
        }
        return Optional.empty();
    }

    /**
     * The annotations: first those of {@code RuntimeVisibleAnnotations} (JVMS 4.7.16), then those
     * of {@code RuntimeInvisibleAnnotations} (4.7.17).
     *
     * @return a list that can't be changed
     * @throws MalformedAttributeException if one of the attributes isn't of its form, which the
     *     cache doesn't check
     */
    public final List<AnnotationRecord> annotations() {
        List<AnnotationRecord> found = null;
        for (Attribute attribute : attributes()) {
            String name = attribute.name();
            boolean isVisible = name.equals("RuntimeVisibleAnnotations");
            if (isVisible || name.equals("RuntimeInvisibleAnnotations")) {
                List<AnnotationRecord> read = new AnnotationReader(attribute).all(isVisible);
                found = found == null ? read : joined(found, read, isVisible);
            }
        }
        return found == null ? Collections.emptyList() : Collections.unmodifiableList(found);
    }

    private static List<AnnotationRecord> joined(List<AnnotationRecord> some,
            List<AnnotationRecord> others, boolean othersFirst) {
        List<AnnotationRecord> all = new ArrayList<>(othersFirst ? others : some);
        all.addAll(othersFirst ? some : others);
        return all;
    }
}
