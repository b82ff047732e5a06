package a.b;
import java.util.*;
import static java.util.Objects.*;
@SuppressWarnings({"unchecked", "rawtypes",})
public abstract class Shop<K extends Comparable<? super K>, V>
        extends Object implements Runnable, Iterable<Map.Entry<K, List<V>>> {
    private static final Map<String, List<int[]>> M = new HashMap<>(), N = null;
    static { M.put("a\u0041", new ArrayList<>(8)); }
    enum Kind {
        A(1) { int f() { return 2; } }, @Deprecated B;
        Kind(int... v) { }
        int f() { return 1 << 3 >>> 1; }
    }
    @interface Mark { String value() default ""; Class<?>[] of() default {}; }
    <T extends Throwable> T[] go(final List<? extends T> in, T[]... more) throws T {
        outer:
        for (int i = 0, j = 9; i < j >> 1; i++, j--) {
            if (i == 3) continue outer; else break;
        }
        for (Map.Entry<String, List<int[]>> e : M.entrySet())
            e.getValue().forEach(x -> x[0] >>= 1);
        try (AutoCloseable c = () -> { }; AutoCloseable d = c) {
            d.close();
        } catch (RuntimeException | Error x) { throw x; } finally { }
        switch (more.length) { case 0: case -1: return null; default: }
        Object o = in.isEmpty() ? (Object) (Runnable) this::run : String[]::new;
        return (T[]) in.stream().map((T t) -> t).toArray(Throwable[]::new);
    }
}
