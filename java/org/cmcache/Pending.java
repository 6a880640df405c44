package org.cmcache;

/**
 * A command that was accepted, and will be stored. It may be asked from any thread, also once its
 * cache is closed.
 */
public final class Pending {
    private final ClassCache cache;
    private final long number;

    Pending(ClassCache cache, long number) {
        this.cache = cache;
        this.number = number;
    }

    /**
     * The command's number: the commands of a file are numbered from 1, over all runs.
     *
     * @return the number
     */
    public long number() {
        return number;
    }

    /**
     * Whether it is known to be stored, without a wait.
     *
     * @return false if it isn't stored yet, or the device failed before that was known
     */
    public boolean isStored() {
        return Long.compareUnsigned(cache.stored(), number) >= 0;
    }

    /**
     * Waits until the command, and so each before it, is stored. Interrupting the thread doesn't
     * end the wait.
     *
     * @throws CacheException.Unsure if the device failed before that is known
     */
    public void await() throws CacheException {
        cache.await(number);
    }

    @Override
    public String toString() {
        return "command " + number;
    }
}
