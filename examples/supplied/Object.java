package java.lang;

public class Object {
    public native int hashCode();
}
