/* Links the classes of a folder's two sheets, prints their tables and missing slots, and asks for an interface table. Usage: card FOLDER */
#include <inttypes.h>
#include <stdio.h>
#include <string.h>

#include "lgt_linker.h"

#define AREA_WORDS 4096

/* A byte more than the longest sheet, so that a longer file is refused and not cut. */
static uint8_t bytes[LGT_MOST_CLASS_BLOCKS * LGT_BLOCK_BYTES + 1];
static uint32_t set[LGT_CLASS_WORDS];
static uint32_t abi[LGT_ABI_WORDS];
static uint32_t numbers[LGT_NUMBERS];
static uint32_t area[AREA_WORDS] = {1};
static uint32_t stubs[LGT_MOST_SLOTS];
static uint32_t missing[LGT_MISSING_WORDS];

/* Reads a file into `bytes`; answers its length, 0 if it cannot be read. */
static size_t read_file(const char *folder, const char *name)
{
    char path[4096];
    size_t length = 0;
    FILE *file;

    if (snprintf(path, sizeof path, "%s/%s", folder, name) >= (int)sizeof path)
        return 0;
    file = fopen(path, "rb");
    if (file != NULL) {
        length = fread(bytes, 1, sizeof bytes, file);
        fclose(file);
    }
    return length;
}

/* Says by which number something is refused, and what to mend; answers the number. */
static uint32_t told(const char *what, uint32_t refusal)
{
    if (refusal != LGT_ACCEPTED)
        printf("%s refused %" PRIu32 "\n  To mend: %s\n", what, refusal, lgt_refusal_text(refusal));
    return refusal;
}

/* The record of a class, counted from 1. */
static const uint32_t *class_record(uint32_t number)
{
    return set + LGT_SET_COUNTS + LGT_CLASS_RECORD * (number - 1);
}

/* Prints a class's name, a part of the text, which has four bytes a word, lowest first. */
static void print_name(const uint32_t *record)
{
    const uint32_t *text = set + LGT_SET_COUNTS + LGT_CLASS_RECORD * set[LGT_SET_CLASSES]
                           + LGT_METHOD_RECORD * set[LGT_SET_METHODS] + LGT_FIELD_RECORD * set[LGT_SET_FIELDS]
                           + set[LGT_SET_INTERFACE_WORDS] + set[LGT_SET_COMPILER_WORDS];
    uint32_t at = record[LGT_CLASS_NAME_START], end = at + record[LGT_CLASS_NAME_LENGTH];

    for (; at < end; at++)
        putchar((int)(text[at / 4] >> 8 * (at % 4) & 0xFF));
}

static void print_slots(uint32_t first, uint32_t slots)
{
    uint32_t slot;

    for (slot = 0; slot < slots; slot++)
        printf("%" PRIu32 " %" PRIu32 "\n", slot, area[first + slot]);
}

/* How many slots of a linked class are missing. */
static uint32_t missing_slots(uint32_t number)
{
    uint32_t count[1];

    told("missing slots", lgt_missing_slots(set, LGT_CLASS_WORDS, abi, LGT_ABI_WORDS, missing, LGT_MISSING_WORDS, number, count));
    return count[0];
}

/* Asks for class 2's table of class 1, which has `slots`, and prints it. */
static uint32_t ask(uint32_t slots)
{
    uint32_t answer[2];

    if (told("ask", lgt_interface_dispatch_table(set, LGT_CLASS_WORDS, abi, LGT_ABI_WORDS, numbers, LGT_NUMBERS, 2, 1, area,
                                                 AREA_WORDS, stubs, LGT_MOST_SLOTS, answer)) != LGT_ACCEPTED)
        return 1;
    printf("class 2 as class 1: place %" PRIu32 " nodes read %" PRIu32 "\n", answer[0], answer[1]);
    print_slots(answer[0] + 1, slots);
    return 0;
}

int main(int argc, char **argv)
{
    const char *descriptor = "(IJ)V";
    uint32_t answer[2], slots = 0, number;
    uint64_t words[1];

    if (argc != 2) {
        fprintf(stderr, "usage: card FOLDER\n");
        return 2;
    }
    for (number = 0; number < LGT_MOST_SLOTS; number++)
        stubs[number] = 4026531840u + number;

    number = lgt_read_abi_sheet(bytes, read_file(argv[1], "abi.bin"), abi, LGT_ABI_WORDS, answer);
    if (told("abi", number) != 0)
        return 1;
    printf("abi words %" PRIu32 "\n", answer[0]);
    number = lgt_read_class_sheet(bytes, read_file(argv[1], "classes.bin"), set, LGT_CLASS_WORDS, answer);
    if (told("classes", number) != 0)
        return 1;
    printf("classes words %" PRIu32 "\n", answer[0]);
    /* Both sheets are read: their signatures are numbered once, before the first link. */
    if (told("numbers", lgt_number_signatures(set, LGT_CLASS_WORDS, abi, LGT_ABI_WORDS, numbers, LGT_NUMBERS)) != 0)
        return 1;

    for (number = 1; number <= set[LGT_SET_CLASSES]; number++) {
        if (told("class", lgt_link(set, LGT_CLASS_WORDS, abi, LGT_ABI_WORDS, numbers, LGT_NUMBERS, number, area, AREA_WORDS,
                                   stubs, LGT_MOST_SLOTS, missing, LGT_MISSING_WORDS, answer)) != 0)
            return 1;
        printf("class %" PRIu32 " ", number);
        print_name(class_record(number));
        printf(" words %" PRIu32 " place %" PRIu32 " slots %" PRIu32 " missing %" PRIu32 "\n",
               class_record(number)[LGT_CLASS_INSTANCE_WORDS], answer[0], answer[1], missing_slots(number));
        print_slots(answer[0] + 1, answer[1]);
        if (number == 1)
            slots = answer[1];
    }
    if (ask(slots) != 0 || ask(slots) != 0)
        return 1;

    /* A class is linked once; an empty slice may be NULL. */
    number = lgt_link(set, LGT_CLASS_WORDS, abi, LGT_ABI_WORDS, numbers, LGT_NUMBERS, 1, area, AREA_WORDS, NULL, 0, NULL, 0,
                      answer);
    if (number != LGT_REFUSED_CLASS)
        return 1;
    printf("class 1 again: refused %" PRIu32 ", answer %" PRIu32 " %" PRIu32 "\n", number, answer[0], answer[1]);
    printf("  To mend: %s\n", lgt_refusal_text(number));

    number = lgt_argument_words((const uint8_t *)descriptor, strlen(descriptor), 0, words);
    if (told(descriptor, number) != 0)
        return 1;
    printf("%s argument words %" PRIu64 "\n", descriptor, words[0]);
    return 0;
}
