/*
 * Reads a class sheet whose classes come in any order, puts parents first, and stores the set. Usage: order FROM TO, where FROM and
 * TO are files
 */
#include <inttypes.h>
#include <stdio.h>

#include "lgt_linker.h"

/* A byte more than the longest sheet, so that a longer file is refused and not cut. */
static uint8_t bytes[LGT_CLASS_BYTES + 1];
static uint32_t set[LGT_CLASS_WORDS];
static uint32_t order[LGT_MOST_CLASSES];

/* Says by which number something is refused, and what to mend; answers the number. */
static uint32_t told(const char *what, uint32_t refusal)
{
    if (refusal != LGT_ACCEPTED)
        printf("%s refused %" PRIu32 "\n  To mend: %s\n", what, refusal, lgt_refusal_text(refusal));
    return refusal;
}

/* Prints a class's name, a part of the text, which has four bytes a word, lowest first. */
static void print_name(uint32_t number)
{
    const uint32_t *record = set + LGT_SET_COUNTS + LGT_CLASS_RECORD * (number - 1);
    const uint32_t *text = set + LGT_SET_COUNTS + LGT_CLASS_RECORD * set[LGT_SET_CLASSES]
                           + LGT_METHOD_RECORD * set[LGT_SET_METHODS] + LGT_FIELD_RECORD * set[LGT_SET_FIELDS]
                           + set[LGT_SET_INTERFACE_WORDS] + set[LGT_SET_COMPILER_WORDS];
    uint32_t at = record[LGT_CLASS_NAME_START], end = at + record[LGT_CLASS_NAME_LENGTH];

    for (; at < end; at++)
        putchar((int)(text[at / 4] >> 8 * (at % 4) & 0xFF));
}

int main(int argc, char **argv)
{
    uint32_t answer[1], number;
    size_t length;
    FILE *file;

    if (argc != 3) {
        fprintf(stderr, "usage: order FROM TO\n");
        return 2;
    }
    file = fopen(argv[1], "rb");
    if (file == NULL) {
        perror(argv[1]);
        return 2;
    }
    length = fread(bytes, 1, sizeof bytes, file);
    fclose(file);
    if (told("reading", lgt_read_unordered_sheet(bytes, length, set, LGT_CLASS_WORDS, answer)) != 0
        || told("renumbering", lgt_renumber_classes(set, LGT_CLASS_WORDS, order, LGT_MOST_CLASSES, answer)) != 0
        /* The writing judges records and descriptors, so that every name below lies in the text. */
        || told("writing", lgt_write_class_sheet(set, LGT_CLASS_WORDS, bytes, sizeof bytes, answer)) != 0)
        return 1;
    for (number = 1; number <= set[LGT_SET_CLASSES]; number++) {
        printf("class %" PRIu32 " ", number);
        print_name(number);
        printf(" was %" PRIu32 "\n", order[number - 1]);
    }
    length = (size_t)answer[0] * LGT_BLOCK_BYTES;
    file = fopen(argv[2], "wb");
    if (file == NULL || fwrite(bytes, 1, length, file) != length || fclose(file) != 0) {
        perror(argv[2]);
        return 2;
    }
    return 0;
}
