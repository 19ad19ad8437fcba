/** Every kind of method that a class can have: native, synchronized, strictfp, abstract, final. */
public abstract class Gate implements Openable, Runnable {
    protected transient volatile int state;

    public native int read(byte[] bytes, int count);

    public synchronized void open() {
        state = 1;
    }

    strictfp double half(double d) {
        return d / 2;
    }

    protected abstract void close() throws Exception;

    public static final synchronized strictfp void both() {
    }

    private final void shut() {
        try {
            close();
        } catch (Exception e) {
            state = 2;
        }
    }
}
