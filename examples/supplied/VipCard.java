public class VipCard extends Card {
    private long since;

    public void close() {
        since = 0;
    }

    public void mark(long day) {
        since = day;
    }
}
