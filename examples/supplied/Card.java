public class Card {
    private int number;

    public void open() {
        number = 1;
    }

    public void close() {
        number = 0;
    }
}
