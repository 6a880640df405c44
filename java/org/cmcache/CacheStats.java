package org.cmcache;

/** How far a cache is, and its sizes. */
public final class CacheStats {
    private final long[] told;

    CacheStats(long[] told) {
        this.told = told;
    }

    /**
     * The last command that was accepted.
     *
     * @return its number, 0 if there was none
     */
    public long accepted() {
        return told[0];
    }

    /**
     * The last command that is known to be stored.
     *
     * @return its number, 0 if there was none
     */
    public long stored() {
        return told[1];
    }

    /**
     * How large a root is: it has 1,024 * 2^top bytes.
     *
     * @return 3 to 12; 0 of a cache that is only read
     */
    public int top() {
        return (int) told[2];
    }

    /**
     * How many roots the file may have.
     *
     * @return 1 to 256; 0 of a cache that is only read
     */
    public int roots() {
        return (int) told[3];
    }

    /**
     * How many slots each half of the journal has.
     *
     * @return 256 to 65,536; 0 of a cache that is only read
     */
    public int slots() {
        return (int) told[4];
    }

    @Override
    public String toString() {
        return "accepted " + accepted() + " stored " + stored() + " top " + top() + " roots "
                + roots() + " slots " + slots();
    }
}
