/** Long and Double constants, which take two places of the pool, and a static initialiser. */
public class Numbers {
    public static final long PRICE = 1234567890123L;
    public static final double RATE = 2.5;
    static final float SHARE = 0.25f;
    private long sum = 5000000000L;
    protected double[][] grid;
    static String[] names = {"a"};

    long total(long a, double b, int[] c, String[][] d) {
        return sum + a + (long) b + c.length + d.length + 77777777777L;
    }

    static double rate(char c, short s, byte b, boolean z, float f) {
        return z ? 3.75e100 : c + s + b + f;
    }
}
