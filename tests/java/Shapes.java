package shapes;

import java.io.Closeable;
import java.io.IOException;
import java.lang.annotation.ElementType;
import java.lang.annotation.Retention;
import java.lang.annotation.RetentionPolicy;
import java.lang.annotation.Target;
import java.util.ArrayList;
import java.util.List;
import java.util.Map;
import java.util.TreeMap;
import java.util.function.Function;
import java.util.function.Supplier;

/** Sources that make a compiler write most of what class files of version 52.0 can hold. */
public class Shapes {
    /** An annotation with values of several kinds. */
    @Retention(RetentionPolicy.RUNTIME)
    @Target({ElementType.TYPE, ElementType.METHOD, ElementType.FIELD})
    public @interface Marked {
        String name() default "nothing";
        int[] numbers() default {1, 2, 3};
        Class<?> type() default Object.class;
    }

    /** An interface with a default and a static method. */
    public interface Area {
        long UNIT = 1L << 40;

        double area();

        default double doubled() {
            return 2 * area();
        }

        static Area of(double area) {
            return () -> area;
        }
    }

    /** An enum whose constants have bodies. */
    public enum Colour implements Area {
        RED {
            @Override
            public double area() {
                return 1.5;
            }
        },
        GREEN {
            @Override
            public double area() {
                return Float.MAX_VALUE;
            }
        };

        static final Map<String, Colour> BY_NAME = new TreeMap<>();

        static {
            for (Colour colour : values()) {
                BY_NAME.put(colour.name(), colour);
            }
        }
    }

    /** A generic class, bounded. */
    @Marked(name = "pair", numbers = {}, type = List.class)
    public static final class Pair<A extends Comparable<? super A>, B> {
        private final A first;
        private final transient B second;
        protected volatile int uses;

        Pair(A first, B second) {
            this.first = first;
            this.second = second;
        }

        <C> Pair<A, C> with(Function<? super B, ? extends C> change) {
            return new Pair<>(first, change.apply(second));
        }

        synchronized strictfp double use() {
            uses++;
            return uses / 3.0;
        }

        @Deprecated
        native int elsewhere(long a, double b, Object[][] rest);
    }

    /** An inner class that holds its outer instance, and a local and an anonymous one. */
    class Inner {
        int size() {
            class Local implements Supplier<Integer> {
                @Override
                public Integer get() {
                    return names.size();
                }
            }
            Supplier<Integer> other = new Supplier<Integer>() {
                @Override
                public Integer get() {
                    return new Local().get() + 1;
                }
            };
            return other.get();
        }
    }

    /** An abstract class with a bridge method below it. */
    abstract static class Source<T> implements Closeable {
        abstract T next() throws IOException;

        @Override
        public void close() throws IOException {}
    }

    static class Names extends Source<String> {
        @Override
        String next() {
            return "na\u00efve \ud83d\ude00 \0";
        }
    }

    final List<String> names = new ArrayList<>();

    static int weekday(String name) {
        switch (name) {
            case "Monday":
                return 1;
            case "Aa":
            case "BB":
                return 2;
            default:
                return Integer.MAX_VALUE;
        }
    }

    static int colour(Colour colour) {
        switch (colour) {
            case RED:
                return 1;
            default:
                return 0;
        }
    }

    static String read(Supplier<? extends Source<String>> sources) throws IOException {
        try (Source<String> source = sources.get(); Names names = new Names()) {
            return source.next() + names.next();
        } catch (IllegalStateException | NullPointerException fault) {
            throw new IOException(fault);
        } finally {
            System.out.println("read");
        }
    }

    static Function<Integer, Function<Integer, Long>> sum() {
        return a -> b -> (long) a + b;
    }

    static Supplier<List<String>> maker() {
        return ArrayList::new;
    }

    static int count(Object... all) {
        assert all != null : "some";
        int[][][] cube = new int[2][3][];
        return all.length + cube.length;
    }
}
