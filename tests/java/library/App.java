import java.lang.reflect.Method;
import java.util.Arrays;

/** Loads the classes that are named, and says what they are: something for the agent to watch. */
final class App {
    private App() {}

    public static void main(String[] names) throws Exception {
        for (String name : names) {
            Class<?> type = Class.forName(name.replace('/', '.'));
            String[] methods = Arrays.stream(type.getDeclaredMethods()).map(Method::toString)
                    .sorted().toArray(String[]::new);
            System.out.println(type + " " + Arrays.toString(methods));
        }
        System.err.println(names.length + " classes");
    }
}
