/* Corrects a class's name in a class sheet and stores the set. Usage: rename FROM OLD NEW TO, where FROM and TO are files */
#include <inttypes.h>
#include <stdio.h>
#include <string.h>

#include "lgt_linker.h"

/* A byte more than the longest sheet, so that a longer file is refused and not cut. */
static uint8_t bytes[LGT_CLASS_BYTES + 1];
static uint32_t set[LGT_CLASS_WORDS];

/* Says by which number something is refused, and what to mend; answers the number. */
static uint32_t told(const char *what, uint32_t refusal)
{
    if (refusal != LGT_ACCEPTED)
        printf("%s refused %" PRIu32 "\n  To mend: %s\n", what, refusal, lgt_refusal_text(refusal));
    return refusal;
}

/* Reads a class sheet into `set`; answers 0 if that is done. */
static int load(const char *path)
{
    uint32_t answer[1];
    size_t length;
    FILE *file = fopen(path, "rb");

    if (file == NULL) {
        perror(path);
        return 1;
    }
    length = fread(bytes, 1, sizeof bytes, file);
    fclose(file);
    return told(path, lgt_read_class_sheet(bytes, length, set, LGT_CLASS_WORDS, answer)) != LGT_ACCEPTED;
}

/* Writes `set` as a class sheet; answers 0 if that is done. Nothing is stored of a set that is refused. */
static int store(const char *path)
{
    uint32_t blocks[1];
    size_t length;
    FILE *file;
    int done;

    if (told("the set", lgt_write_class_sheet(set, LGT_CLASS_WORDS, bytes, sizeof bytes, blocks)) != LGT_ACCEPTED)
        return 1;
    length = (size_t)blocks[0] * LGT_BLOCK_BYTES;
    file = fopen(path, "wb");
    if (file == NULL) {
        perror(path);
        return 1;
    }
    done = fwrite(bytes, 1, length, file) == length;
    done = fclose(file) == 0 && done;
    if (!done) {
        fprintf(stderr, "%s could not be written\n", path);
        return 1;
    }
    printf("stored %" PRIu32 " block%s\n", blocks[0], blocks[0] == 1 ? "" : "s");
    return 0;
}

/* The record of a class, counted from 1. */
static uint32_t *class_record(uint32_t number)
{
    return set + LGT_SET_COUNTS + LGT_CLASS_RECORD * (number - 1);
}

/* The text, which comes last: four bytes a word, lowest first. */
static uint32_t *text(void)
{
    return set + LGT_SET_COUNTS + LGT_CLASS_RECORD * set[LGT_SET_CLASSES] + LGT_METHOD_RECORD * set[LGT_SET_METHODS]
           + LGT_FIELD_RECORD * set[LGT_SET_FIELDS] + set[LGT_SET_INTERFACE_WORDS] + set[LGT_SET_COMPILER_WORDS];
}

/* A class's name as a string. */
static const char *class_name(uint32_t number)
{
    static char name[LGT_MOST_NAME_BYTES + 1];
    const uint32_t *record = class_record(number);
    uint32_t i;

    for (i = 0; i < record[LGT_CLASS_NAME_LENGTH]; i++) {
        uint32_t at = record[LGT_CLASS_NAME_START] + i;
        name[i] = (char)(text()[at / 4] >> 8 * (at % 4) & 0xFF);
    }
    name[i] = '\0';
    return name;
}

/*
 * Gives a class another name, of any length: it goes to the end of the text, so that no other record that uses the bytes of the
 * old name changes, and the class's record says where it is. What follows the text is 0, as it was read. Answers 0 if the
 * text's limit leaves room for the name.
 */
static int rename_class(uint32_t number, const char *name)
{
    uint32_t at = set[LGT_SET_TEXT_BYTES], *record = class_record(number);
    size_t length = strlen(name);

    if (length > LGT_MOST_TEXT_BYTES - at)
        return 1;
    record[LGT_CLASS_NAME_START] = at;
    record[LGT_CLASS_NAME_LENGTH] = (uint32_t)length;
    for (; *name != '\0'; name++, at++)
        text()[at / 4] |= (uint32_t)(unsigned char)*name << 8 * (at % 4);
    set[LGT_SET_TEXT_BYTES] = at;
    return 0;
}

int main(int argc, char **argv)
{
    uint32_t number;

    if (argc != 5) {
        fprintf(stderr, "usage: rename FROM OLD NEW TO\n");
        return 2;
    }
    if (load(argv[1]) != 0)
        return 1;
    for (number = 1; number <= set[LGT_SET_CLASSES] && strcmp(class_name(number), argv[2]) != 0; number++)
        ;
    if (number > set[LGT_SET_CLASSES]) {
        printf("no class is named %s\n", argv[2]);
        return 1;
    }
    if (rename_class(number, argv[3]) != 0) {
        printf("the text has no room for %s\n", argv[3]);
        return 1;
    }
    if (store(argv[4]) != 0 || load(argv[4]) != 0)
        return 1;
    for (number = 1; number <= set[LGT_SET_CLASSES]; number++)
        printf("class %" PRIu32 " %s\n", number, class_name(number));
    return 0;
}
