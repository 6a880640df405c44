package org.cmcache;

import java.util.Map;

/** An annotation (JVMS 4.7.16). */
public final class AnnotationRecord {
    private final String type;
    private final boolean isVisible;
    private final Map<String, Object> values;

    AnnotationRecord(String type, boolean isVisible, Map<String, Object> values) {
        this.type = type;
        this.isVisible = isVisible;
        this.values = values;
    }

    /**
     * The annotation's type.
     *
     * @return as {@code Ljava/lang/Deprecated;}
     */
    public String type() {
        return type;
    }

    /**
     * Whether programs see it at run time.
     *
     * @return true if it, or the annotation around it, stands in an attribute of visible ones
     */
    public boolean isVisible() {
        return isVisible;
    }

    /**
     * The elements that have a value here, by name, in their order; defaults aren't among them. A
     * value is a {@link Byte}, {@link Character}, {@link Double}, {@link Float}, {@link Integer},
     * {@link Long}, {@link Short}, {@link Boolean}, {@link String}, {@link EnumValue},
     * {@link ClassValue}, {@link AnnotationRecord}, or a {@link java.util.List} of these for an
     * array. Of an element that stands twice, the first counts.
     *
     * @return a map that can't be changed
     */
    public Map<String, Object> values() {
        return values;
    }

    @Override
    public String toString() {
        return "@" + type + values;
    }

    /** A constant of an enum. */
    public static final class EnumValue {
        private final String type;
        private final String name;

        EnumValue(String type, String name) {
            this.type = type;
            this.name = name;
        }

        /**
         * The enum.
         *
         * @return its descriptor, as {@code Ljava/lang/annotation/ElementType;}
         */
        public String type() {
            return type;
        }

        /**
         * The constant.
         *
         * @return its name
         */
        public String name() {
            return name;
        }

        @Override
        public String toString() {
            return type + name;
        }
    }

    /** A class, or void. */
    public static final class ClassValue {
        private final String descriptor;

        ClassValue(String descriptor) {
            this.descriptor = descriptor;
        }

        /**
         * The class.
         *
         * @return its descriptor, as {@code Ljava/util/List;}, {@code [I} or {@code V}
         */
        public String descriptor() {
            return descriptor;
        }

        @Override
        public String toString() {
            return descriptor;
        }
    }
}
