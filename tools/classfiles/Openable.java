/** An interface with a constant that a static initialiser makes. */
public interface Openable {
    Object LOCK = new Object();
    int MOST = 3;

    void open();
}
