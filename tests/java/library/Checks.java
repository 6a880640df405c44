/** Counts what held, and prints what didn't. */
final class Checks {
    private int passed;
    private int failed;

    interface Call {
        void run() throws Exception;
    }

    synchronized void that(String name, boolean holds) {
        if (holds) {
            passed++;
        } else {
            failed++;
            System.out.println("FAILED: " + name);
        }
    }

    void equal(String name, Object wanted, Object got) {
        that(name + ": " + got + ", wanted " + wanted, wanted.equals(got));
    }

    /** The call throws just this; what it threw, or null. */
    <E extends Throwable> E threw(String name, Class<E> wanted, Call call) {
        Throwable thrown = null;
        try {
            call.run();
        } catch (Throwable e) {
            thrown = e;
        }
        boolean holds = thrown != null && thrown.getClass() == wanted;
        that(name + ": " + thrown + ", wanted " + wanted, holds);
        return holds ? wanted.cast(thrown) : null;
    }

    /** Prints the last line, and ends the program. */
    void finish() {
        System.out.println(passed + " passed, " + failed + " failed");
        System.exit(failed == 0 ? 0 : 1);
    }
}
