/** An inner class that reads a private field: the compiler adds members of its own. */
public class Outer {
    private int kept = 1;

    class Inner {
        int read() {
            return kept;
        }
    }

    private static class Apart extends Outer {
    }

    Object made() {
        return new Apart();
    }
}
