package org.cmcache;

/**
 * An attribute that the cache doesn't check, as one of annotations, isn't of the form that the Java
 * Virtual Machine Specification gives it.
 */
public final class MalformedAttributeException extends RuntimeException {
    private static final long serialVersionUID = 1;

    MalformedAttributeException(Attribute attribute) {
        super(attribute.name() + " of " + attribute.record() + " isn't of its form");
    }
}
