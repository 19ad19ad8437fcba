"""The vectors of reference bitmaps: which instance words hold references.

`refs-` files: the number of instance words, the number of list words lent, then the bitmap's bytes. A name tells the
row that refuses the list (24 or 25), or `ok`. Each row below says by hand what both calls answer, and `judge_references`, which
takes the bitmap as one number and shifts it bit by bit, must say the same.
"""

vectors = {}  # file name -> bytes


def judge_references(bitmap, words):
    """(0, the marked words in rising order), or (24, []): "word i is marked if byte i / 8 has the bit 0x80 shifted right by i modulo 8"."""
    if 8 * len(bitmap) < words:
        return 24, []
    bits = int.from_bytes(bitmap, "big") >> 8 * len(bitmap) - words  # the last word's bit is the lowest; those beyond are gone
    marked = []
    for word in reversed(range(words)):
        if bits & 1:
            marked.append(word)
        bits >>= 1
    return 0, marked[::-1]


def judge_list(bitmap, words, room):
    """The row that refuses the list, or 0, and the marked words."""
    row, marked = judge_references(bitmap, words)
    return (row, marked) if row or len(marked) <= room else (25, [])


def judge_count(bitmap, words):
    """The row that refuses the count, or 0, and the count."""
    row, marked = judge_references(bitmap, words)
    return row, len(marked)


def parted(data):
    """The instance words, the list words lent and the bitmap of a file."""
    return int.from_bytes(data[:4], "little"), int.from_bytes(data[4:8], "little"), data[8:]


# Name, bitmap, instance words, list words lent, and what both calls answer (`answers` says how).
VECTORS = """
a1                  A1          8           8   0,2,7
a1-list-exact       A1          8           3   0,2,7
a1-list-short       A1          8           2   r25:3
a1-list-empty       A1          8           0   r25:3
a1-7-words          A1          7           7   0,2
a1-1-word           A1          1           1   0
a1-0-words          A1          0           0   -
9-words-1-byte      A1          9           9   r24
9-words-list-empty  A1          9           0   r24
9-words-2-bytes     A100        9           9   0,2,7
byte-after          A1FF        8           8   0,2,7
bytes-after         01FFFFFF    8           8   7
nothing             -           0           0   -
nothing-list        -           0           5   -
1-word-no-byte      -           1           1   r24
7-words-no-byte     -           7           7   r24
ff-0-words          FF          0           0   -
ff80                FF80        9           9   0,1,2,3,4,5,6,7,8
ff80-list-short     FF80        9           8   r25:9
ff7f                FF7F        9           9   0,1,2,3,4,5,6,7
ff7f-list-8         FF7F        9           8   0,1,2,3,4,5,6,7
0000                0000        16          0   -
0001                0001        16          1   15
0001-15-words       0001        15          0   -
8000                8000        16          1   0
0180                0180        16          2   7,8
top                 FFFF        4294967295  5   r24
top-less-7          FFFF        4294967288  5   r24
"""


def make():
    for name, bitmap, words, room, want in (line.split() for line in VECTORS.split("\n") if line):
        answers(name, bytes.fromhex(bitmap.replace("-", "")), int(words), int(room), want)
    every = bytes(range(256))
    marked = [str(8 * byte + bit) for byte in range(256) for bit in range(8) if f"{byte:08b}"[bit] == "1"]
    answers("every-byte", every, 2048, 1024, ",".join(marked))
    answers("every-byte-list-short", every, 2048, 1023, "r25:1024")
    answers("every-byte-2047-words", every, 2047, 1024, ",".join(marked[:-1]))
    answers("all-10000", b"\xFF" * 1250, 10000, 11000, ",".join(str(word) for word in range(10000)))


def answers(name, bitmap, words, room, want):
    """Records a vector and sees that both calls answer what is said: the marked words, `r24`, or `r25` and the count."""
    row = int(want[1:3]) if want[:1] == "r" else 0
    marked = [] if row or want == "-" else [int(word) for word in want.split(",")]
    count = int(want.split(":")[1]) if row == 25 else len(marked)
    found = judge_list(bitmap, words, room), judge_count(bitmap, words)
    if found != ((row, marked), (24, 0) if row == 24 else (0, count)):
        raise SystemExit(f"refs {name}: meant to answer {want}, and answers {found}")
    vectors[f"refs-{f'r{row}' if row else 'ok'}-{name}.bin"] = words.to_bytes(4, "little") + room.to_bytes(4, "little") + bitmap
