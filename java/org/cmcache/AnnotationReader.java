package org.cmcache;

import java.nio.BufferUnderflowException;
import java.nio.ByteBuffer;
import java.util.ArrayList;
import java.util.Collections;
import java.util.LinkedHashMap;
import java.util.List;
import java.util.Map;

/** Reads an attribute of annotations. The cache doesn't check these: anything may stand there. */
final class AnnotationReader {
    /** Values inside values: no compiler comes near it, and reading takes a stack. */
    private static final int DEEPEST = 200;

    private final Attribute attribute;
    private final ClassRecord record;
    private final ByteBuffer content;

    AnnotationReader(Attribute attribute) {
        this.attribute = attribute;
        this.record = attribute.record();
        this.content = attribute.content();
    }

    /** What reads a whole attribute. */
    private interface Reading<T> {
        T read();
    }

    private MalformedAttributeException malformed() {
        return new MalformedAttributeException(attribute);
    }

    /** All of the content, and nothing else. */
    private <T> T whole(Reading<T> reading) {
        try {
            T value = reading.read();
            if (content.hasRemaining()) {
                throw malformed();
            }
            return value;
        } catch (BufferUnderflowException e) {
            throw malformed();
        }
    }

    /** The annotations of a class or a member. */
    List<AnnotationRecord> all(boolean isVisible) {
        return whole(() -> annotations(isVisible));
    }

    /** The value of an AnnotationDefault. */
    Object only() {
        return whole(() -> value(true, 0));
    }

    private List<List<AnnotationRecord>> parameters(boolean isVisible) {
        return whole(() -> {
            int count = content.get() & 0xff;
            List<List<AnnotationRecord>> lists = new ArrayList<>(count);
            while (lists.size() < count) {
                lists.add(annotations(isVisible));
            }
            return lists;
        });
    }

    static List<List<AnnotationRecord>> ofParameters(Member method) {
        List<List<AnnotationRecord>> all = new ArrayList<>();
        add(method, "RuntimeVisibleParameterAnnotations", true, all);
        add(method, "RuntimeInvisibleParameterAnnotations", false, all);
        all.replaceAll(Collections::unmodifiableList);
        return Collections.unmodifiableList(all);
    }

    private static void add(Member method, String name, boolean isVisible,
            List<List<AnnotationRecord>> all) {
        method.attribute(name).ifPresent(attribute -> {
            List<List<AnnotationRecord>> lists = new AnnotationReader(attribute)
                    .parameters(isVisible);
            for (int which = 0; which < lists.size(); which++) {
                if (which == all.size()) {
                    all.add(new ArrayList<>());
                }
                all.get(which).addAll(lists.get(which));
            }
        });
    }

    private int two() {
        return content.getShort() & 0xffff;
    }

    private List<AnnotationRecord> annotations(boolean isVisible) {
        int count = two();
        List<AnnotationRecord> annotations = new ArrayList<>(Math.min(count, 16));
        for (int which = 0; which < count; which++) {
            annotations.add(annotation(isVisible, 0));
        }
        return annotations;
    }

    private AnnotationRecord annotation(boolean isVisible, int depth) {
        String type = text();
        int count = two();
        Map<String, Object> values = count == 0 ? Collections.emptyMap() : new LinkedHashMap<>();
        for (int which = 0; which < count; which++) {
            values.putIfAbsent(text(), value(isVisible, depth));
        }
        return new AnnotationRecord(type, isVisible, Collections.unmodifiableMap(values));
    }

    private String text() {
        return constant(Constant.Kind.UTF8).text();
    }

    private Constant constant(Constant.Kind kind) {
        Constant constant = record.constant(two()).orElseThrow(this::malformed);
        if (constant.kind() != kind) {
            throw malformed();
        }
        return constant;
    }

    private int integer() {
        return constant(Constant.Kind.INTEGER).number().intValue();
    }

    private Object value(boolean isVisible, int depth) {
        if (depth > DEEPEST) {
            throw malformed();
        }
        switch (content.get()) {
            case 'B':
                return (byte) integer();
            case 'C':
                return (char) integer();
            case 'D':
                return constant(Constant.Kind.DOUBLE).number();
            case 'F':
                return constant(Constant.Kind.FLOAT).number();
            case 'I':
                return integer();
            case 'J':
                return constant(Constant.Kind.LONG).number();
            case 'S':
                return (short) integer();
            case 'Z':
                return integer() != 0;
            case 's':
                return text();
            case 'e':
                return new AnnotationRecord.EnumValue(text(), text());
            case 'c':
                return new AnnotationRecord.ClassValue(text());
            case '@':
                return annotation(isVisible, depth + 1);
            case '[':
                return array(isVisible, depth + 1);
            default:
                throw malformed();
        }
    }

    private List<Object> array(boolean isVisible, int depth) {
        int count = two();
        List<Object> values = new ArrayList<>(Math.min(count, 16));
        for (int which = 0; which < count; which++) {
            values.add(value(isVisible, depth));
        }
        return Collections.unmodifiableList(values);
    }
}
