package org.cmcache;

import java.io.IOException;

/**
 * Why a call on a cache failed. {@link #status} says which case it is; the cases that have more to
 * say are subclasses: {@link Damaged}, {@link BadClass}, {@link Device} and {@link Unsure}.
 *
 * <p>Running out of memory is an {@link OutOfMemoryError}, and a call after {@code close} an
 * {@link IllegalStateException}.
 */
public class CacheException extends IOException {
    private static final long serialVersionUID = 1;

    /** The case. */
    private final Status status;

    CacheException(Status status, String message) {
        super(message);
        this.status = status;
    }

    /** The exception of a case that has no more to say than what it is about. */
    static CacheException of(Status status, Object what) {
        return new CacheException(status, what + ": " + status.text());
    }

    /**
     * Which case it is.
     *
     * @return the case
     */
    public final Status status() {
        return status;
    }

    /** The cases. After the first twelve, which refuse a command, nothing has changed. */
    public enum Status {
        /** A loader's name isn't 1 to 96 printable ASCII characters. */
        BAD_NAME(1),
        /** The cache has a loader of this name. */
        LOADER_EXISTS(2),
        /** The cache has no loader of this name. */
        NO_LOADER(3),
        /** The loader has a class of this name. */
        CLASS_EXISTS(4),
        /** The class's record has more words than a record or a root of the file may have. */
        RECORD_TOO_LONG(5),
        /** The file has no room for the record; it was made with too few or too small roots. */
        REGION_FULL(6),
        /** Too many loaders and classes live; the file was made with too few slots. */
        JOURNAL_FULL(7),
        /** There is nothing to compact. */
        NO_MOVE(8),
        /** The device failed earlier. What was accepted before is still found. */
        BROKEN(10),
        /** 2^63 commands were made. */
        NUMBERS_SPENT(12),
        /** More than seven loaders, or one of them twice. */
        BAD_LIST(16),
        /** The bytes are no class file of version 52.0 that keeps the rules: {@link BadClass}. */
        BAD_CLASS(14),
        /** The device failed after a command was accepted: {@link Unsure}. */
        UNSURE(13),
        /** A size of a new file is outside its limits. */
        BAD_SIZES(20),
        /** The file isn't a cache. */
        NOT_A_CACHE(21),
        /** The file is a damaged cache: {@link Damaged}. */
        DAMAGED(22),
        /** The file is longer than 2^40 bytes. */
        TOO_LONG(26),
        /** A call of the system on the file failed: {@link Device}. */
        DEVICE(40),
        /** Something has the name of the file that was to be made. */
        EXISTS(41),
        /** The file is in use, in this process or another. */
        BUSY(42),
        /** The path leads to a folder, a pipe or a device. */
        NOT_REGULAR(43),
        /** Nothing has this name, or the folder isn't there. */
        NO_FILE(44),
        /** The file, or its folder, may not be opened in this way. */
        NOT_ALLOWED(45);

        private final int code;

        Status(int code) {
            this.code = code;
        }

        /**
         * The status of the C interface.
         *
         * @return its number
         */
        public int code() {
            return code;
        }

        /**
         * What it means.
         *
         * @return a few words of English
         */
        public String text() {
            return Native.statusText(code);
        }

        static Status of(int code) {
            for (Status status : values()) {
                if (status.code == code) {
                    return status;
                }
            }
            throw new AssertionError("status " + code + " of cmcache's library");
        }
    }

    /** The file is damaged: the first damage of its bytes. Nothing was changed. */
    public static final class Damaged extends CacheException {
        private static final long serialVersionUID = 1;

        /** What is damaged. */
        private final What what;

        /** In which slot. */
        private final int slot;

        Damaged(Object path, What what, int slot) {
            super(Status.DAMAGED, path + ": damaged " + what.number() + " " + slot + ": " + what);
            this.what = what;
            this.slot = slot;
        }

        /**
         * What is damaged.
         *
         * @return the kind of damage
         */
        public What what() {
            return what;
        }

        /**
         * Where the journal is damaged, or which row leads to what is.
         *
         * @return a slot of the journal; 0 if the damage is in none
         */
        public int slot() {
            return slot;
        }

        /** Kinds of damage, in the order in which they are looked for in one slot. */
        public enum What {
            /** The superblock has another version, or a size outside its limits. */
            SUPERBLOCK("the superblock"),
            /** The file has fewer bytes than both halves of its journal. */
            LENGTH("fewer bytes than the journal needs"),
            /** No half of the journal is open, or both with one epoch. */
            HALVES("which half of the journal counts"),
            /** The head of a half or of a group isn't good. */
            HEAD("a head in the journal"),
            /** Slots are no entry. */
            ENTRY("an entry of the journal"),
            /** A row breaks a rule on rows. */
            ROW("a row"),
            /** A row breaks a rule on chunks. */
            CHUNK("a row's place"),
            /** The words are no record of a class that keeps the rules. */
            RECORD("a class's record"),
            /** A class stands twice in its loader. */
            TWICE("a class that its loader has twice");

            private final String text;

            What(String text) {
                this.text = text;
            }

            /**
             * How the programs number it.
             *
             * @return 1 to 9
             */
            public int number() {
                return ordinal() + 1;
            }

            @Override
            public String toString() {
                return text;
            }
        }
    }

    /** The bytes are no class file of version 52.0 that keeps the rules: the first fault. */
    public static final class BadClass extends CacheException {
        private static final long serialVersionUID = 1;

        /** Why it is refused. */
        private final Why why;

        /** The rule that it breaks. */
        private final int rule;

        /** Where it breaks the rule. */
        private final Spot spot;

        /** Which byte or index. */
        private final long at;

        BadClass(Why why, int rule, Spot spot, long at) {
            super(Status.BAD_CLASS, "bad class: " + text(why, rule, spot, at));
            this.why = why;
            this.rule = rule;
            this.spot = spot;
            this.at = at;
        }

        private static String text(Why why, int rule, Spot spot, long at) {
            switch (why) {
                case TRUNCATED:
                    return "it is truncated";
                case TRAILING:
                    return "it ends before byte " + at;
                case MALFORMED:
                    return "byte " + at + " is none of a class file";
                case OTHER_VERSION:
                    return "it is of version " + at / 65536 + "." + at % 65536
                            + ", and not of 52.0";
                default:
                    String where = spot == Spot.THIS || spot == Spot.SUPER ? "" : " " + at;
                    return "it breaks rule " + rule + " at " + spot.name().toLowerCase() + where;
            }
        }

        /**
         * Why it is refused.
         *
         * @return the kind of fault
         */
        public Why why() {
            return why;
        }

        /**
         * The first rule that it breaks.
         *
         * @return 1 to 24, or 0 if {@link #why} isn't {@link Why#RULE}
         */
        public int rule() {
            return rule;
        }

        /**
         * The kind of spot at which it breaks the rule.
         *
         * @return the kind, or null if {@link #why} isn't {@link Why#RULE}
         */
        public Spot spot() {
            return spot;
        }

        /**
         * Where the fault is.
         *
         * @return of a rule the index at the spot; of another version 65,536 * its major number +
         *     its minor one; otherwise a byte of the file; 0 if truncated
         */
        public long at() {
            return at;
        }

        /** Kinds of faults. */
        public enum Why {
            /** The file ends within a class. */
            TRUNCATED,
            /** Bytes follow the class. */
            TRAILING,
            /** A byte is none of a class file. */
            MALFORMED,
            /** It breaks a rule. */
            RULE,
            /** It begins as a class file of another version than 52.0. */
            OTHER_VERSION
        }

        /** Parts of a class at which it may break a rule. */
        public enum Spot {
            /** A constant of the pool. */
            POOL,
            /** The class itself. */
            THIS,
            /** Its super class. */
            SUPER,
            /** One of its interfaces. */
            INTERFACE,
            /** One of its fields. */
            FIELD,
            /** One of its methods. */
            METHOD,
            /** One of its attributes. */
            ATTRIBUTE
        }
    }

    /** A call of the system failed. */
    public static final class Device extends CacheException {
        private static final long serialVersionUID = 1;

        /** The system's number of the cause. */
        private final int cause;

        Device(Object path, int cause) {
            super(Status.DEVICE, path + ": " + Native.causeText(cause));
            this.cause = cause;
        }

        /**
         * Why it failed.
         *
         * @return the system's number of the error ({@code errno})
         */
        public int errno() {
            return cause;
        }
    }

    /**
     * The device failed after commands were accepted. Whether they are stored is known once the
     * file is opened again.
     */
    public static final class Unsure extends CacheException {
        private static final long serialVersionUID = 1;

        /** The first number. */
        private final long first;

        /** The last number. */
        private final long last;

        Unsure(long first, long last) {
            super(Status.UNSURE, "the device failed: command " + first
                    + (first == last ? "" : " to " + last) + " may or may not be stored");
            this.first = first;
            this.last = last;
        }

        /**
         * The first command of which it isn't known whether it is stored.
         *
         * @return its number
         */
        public long number() {
            return first;
        }

        /**
         * The last such command: at {@link ClassCache#close} that of all that were submitted,
         * otherwise the same as {@link #number}.
         *
         * @return its number
         */
        public long last() {
            return last;
        }
    }
}
