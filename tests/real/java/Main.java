import java.io.BufferedReader;
import java.io.InputStreamReader;
import java.lang.reflect.InvocationTargetException;
import java.util.Arrays;
import java.util.concurrent.ExecutionException;
import java.util.concurrent.FutureTask;
import java.util.concurrent.TimeUnit;
import java.util.concurrent.TimeoutException;

/**
 * Runs recipes: java Main SERVER LEADER, each of which is HOST:PORT. A line of standard input has a number, a recipe
 * (as Locks.mutex), and whether its clients follow the ensemble's configuration. The answer is a line that begins with
 * the number, and then says ok, or why the recipe failed.
 */
public final class Main {
    private static final int SECONDS = 120;

    public static void main(String[] given) throws Exception {
        BufferedReader lines = new BufferedReader(new InputStreamReader(System.in));
        for (String line = lines.readLine(); line != null; line = lines.readLine()) {
            String[] words = line.split(" ");
            String folder = words[1].replace('.', '-') + "-" + words[0];
            try (Bench bench = new Bench(given[0], given[1], folder, Boolean.parseBoolean(words[2]))) {
                System.out.println(words[0] + " " + tried(words[1], bench));
            }
        }
        System.exit(0);
    }

    private static String tried(String recipe, Bench bench) throws Exception {
        FutureTask<Void> task = new FutureTask<>(() -> run(recipe, bench));
        Thread thread = new Thread(task, recipe);
        thread.setDaemon(true);
        thread.start();
        try {
            task.get(SECONDS, TimeUnit.SECONDS);
            return "ok";
        } catch (TimeoutException why) {
            String where = Arrays.stream(thread.getStackTrace())
                    .filter(it -> it.getFileName() != null && !it.getClassName().startsWith("java."))
                    .limit(3).map(String::valueOf).reduce("", (some, next) -> some + " " + next);
            task.cancel(true);
            return "not within " + SECONDS + " seconds:" + where;
        } catch (ExecutionException why) {
            return said(why.getCause());
        }
    }

    private static Void run(String recipe, Bench bench) throws Exception {
        String[] parts = recipe.split("\\.");
        try {
            Class.forName(parts[0]).getDeclaredMethod(parts[1], Bench.class).invoke(null, bench);
        } catch (InvocationTargetException why) {
            throw why.getCause() instanceof Exception ? (Exception) why.getCause() : new Exception(why.getCause());
        }
        return null;
    }

    /** Says what was thrown, and at which line of a recipe. */
    private static String said(Throwable why) {
        Throwable first = why;
        while (first.getCause() != null) {
            first = first.getCause();
        }
        String where = Arrays.stream(first.getStackTrace())
                .filter(it -> it.getClassName().indexOf('.') < 0)
                .findFirst().map(it -> " (" + it.getFileName() + ":" + it.getLineNumber() + ")").orElse("");
        return (first.getClass().getSimpleName() + " " + first.getMessage()).replace('\n', ' ') + where;
    }
}
