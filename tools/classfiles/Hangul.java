/** A field whose name is in Hangul, by its number. */
class Hangul {
    int \uBB38;
}
