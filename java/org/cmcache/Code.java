package org.cmcache;

import java.nio.ByteBuffer;
import java.util.ArrayList;
import java.util.Collections;
import java.util.List;
import java.util.Optional;

/** The code of a method (JVMS 4.7.3). The cache has checked its form, and no instruction. */
public final class Code extends Attributed {
    private final ClassRecord record;
    private final ByteBuffer content;
    private final int at;

    Code(Attribute attribute) {
        this.record = attribute.record();
        this.content = attribute.content();
        this.at = attribute.at();
    }

    @Override
    ClassRecord record() {
        return record;
    }

    private int two(int place) {
        return content.getShort(place) & 0xffff;
    }

    /**
     * How many values the operand stack holds at most.
     *
     * @return max_stack
     */
    public int maxStack() {
        return two(0);
    }

    /**
     * How many local variables there are.
     *
     * @return max_locals
     */
    public int maxLocals() {
        return two(2);
    }

    private int length() {
        return content.getInt(4);
    }

    /**
     * The instructions.
     *
     * @return their bytes, to be read only
     */
    public ByteBuffer instructions() {
        ByteBuffer part = content.duplicate();
        part.position(8);
        part.limit(8 + length());
        return part.slice();
    }

    private int handlersAt() {
        return 8 + length() + 2;
    }

    private int handlerCount() {
        return two(8 + length());
    }

    /**
     * The exception handlers, in their order.
     *
     * @return a list that can't be changed
     */
    public List<Handler> handlers() {
        List<Handler> handlers = new ArrayList<>(handlerCount());
        for (int which = 0; which < handlerCount(); which++) {
            handlers.add(new Handler(handlersAt() + 8 * which));
        }
        return Collections.unmodifiableList(handlers);
    }

    @Override
    public List<Attribute> attributes() {
        int next = handlersAt() + 8 * handlerCount();
        int count = two(next);
        next += 2;
        List<Attribute> attributes = new ArrayList<>(count);
        for (int which = 0; which < count; which++) {
            int length = content.getInt(next + 2);
            attributes.add(new Attribute(record, two(next), at + next + 6, length));
            next += 6 + length;
        }
        return Collections.unmodifiableList(attributes);
    }

    /** An exception handler. */
    public final class Handler {
        private final int place;

        private Handler(int place) {
            this.place = place;
        }

        /**
         * The first instruction that it covers.
         *
         * @return its place in the instructions
         */
        public int start() {
            return two(place);
        }

        /**
         * Behind the last instruction that it covers.
         *
         * @return that place in the instructions
         */
        public int end() {
            return two(place + 2);
        }

        /**
         * Where the handler begins.
         *
         * @return its place in the instructions
         */
        public int handler() {
            return two(place + 4);
        }

        /**
         * The class whose instances it catches.
         *
         * @return its name; empty if it catches everything
         */
        public Optional<String> catchType() {
            int index = two(place + 6);
            return index == 0 ? Optional.empty() : Optional.of(record.className(index));
        }
    }
}
