/* Takes the members of a class file and stores the class as a class sheet.
   Usage: members FROM.class FIRST-TARGET TO.bin */
#include <inttypes.h>
#include <stdio.h>
#include <stdlib.h>

#include "lgt_linker.h"

static uint8_t bytes[1 << 20], sheet[LGT_CLASS_BYTES];
static uint32_t targets[LGT_MOST_METHODS], set[LGT_CLASS_WORDS];
static uint32_t fields[LGT_FILE_FIELD_WORDS], methods[LGT_FILE_METHOD_WORDS], text[LGT_FILE_TEXT_WORDS];

/* Says by which number something is refused, and what to mend; answers the number. */
static uint32_t told(const char *what, uint32_t refusal)
{
    if (refusal != LGT_ACCEPTED)
        printf("%s refused %" PRIu32 "\n  To mend: %s\n", what, refusal, lgt_refusal_text(refusal));
    return refusal;
}

/* Prints so many bytes of the text, which has four a word, lowest first. */
static void print_part(uint32_t start, uint32_t length)
{
    uint32_t at;

    for (at = start; at < start + length; at++)
        putchar((int)(text[at / 4] >> 8 * (at % 4) & 0xFF));
}

/* Prints a method's or a field's record. */
static void print_member(const char *kind, const uint32_t *record)
{
    printf("  %s ", kind);
    print_part(record[LGT_METHOD_NAME_START], record[LGT_METHOD_NAME_LENGTH]);
    putchar(' ');
    print_part(record[LGT_METHOD_DESCRIPTOR_START], record[LGT_METHOD_DESCRIPTOR_LENGTH]);
    printf(" %" PRIu32 " flags 0x%" PRIx32 "\n", record[LGT_METHOD_TARGET], record[LGT_METHOD_FLAGS]);
}

/* Reads the members of the class file, method i with the target first + 16 * i; answers 0 if that is done. */
static int load(const char *path, uint32_t first, uint32_t file[LGT_FILE_ANSWER])
{
    size_t length;
    uint32_t i, refusal;
    FILE *stream = fopen(path, "rb");

    if (stream == NULL) {
        perror(path);
        return 1;
    }
    length = fread(bytes, 1, sizeof bytes, stream);
    fclose(stream);
    if (length == sizeof bytes) {
        fprintf(stderr, "%s is too long: fewer than %zu bytes are read here\n", path, sizeof bytes);
        return 1;
    }
    if (told(path, lgt_class_file_head(bytes, length, file)) != LGT_ACCEPTED)
        return 1;
    for (i = 0; i < file[LGT_FILE_METHODS]; i++)
        targets[i] = first + 16 * i;
    refusal = lgt_read_class_file(bytes, length, targets, file[LGT_FILE_METHODS], fields, LGT_FILE_FIELD_WORDS, methods,
                                  LGT_FILE_METHOD_WORDS, text, LGT_FILE_TEXT_WORDS, file);
    return told(path, refusal) != LGT_ACCEPTED;
}

/* Copies words to the end of the set; answers where they end. */
static uint32_t *put(uint32_t *at, const uint32_t *words, uint32_t count)
{
    uint32_t i;

    for (i = 0; i < count; i++)
        at[i] = words[i];
    return at + count;
}

/* The set of this one class, built, without a parent; every word that is not named is 0. */
static void lay_out(const uint32_t file[LGT_FILE_ANSWER])
{
    uint32_t *class_record = set + LGT_SET_COUNTS, *at = class_record + LGT_CLASS_RECORD;

    set[LGT_SET_CLASSES] = 1;
    set[LGT_SET_METHODS] = class_record[LGT_CLASS_METHOD_COUNT] = file[LGT_FILE_METHODS];
    set[LGT_SET_FIELDS] = class_record[LGT_CLASS_FIELD_COUNT] = file[LGT_FILE_FIELDS];
    set[LGT_SET_TEXT_BYTES] = file[LGT_FILE_TEXT_BYTES];
    class_record[LGT_CLASS_NAME_LENGTH] = file[LGT_FILE_NAME_LENGTH];
    class_record[LGT_CLASS_FLAGS] = file[LGT_FILE_FLAGS];
    at = put(at, methods, LGT_METHOD_RECORD * file[LGT_FILE_METHODS]);
    at = put(at, fields, LGT_FIELD_RECORD * file[LGT_FILE_FIELDS]);
    put(at, text, (file[LGT_FILE_TEXT_BYTES] + 3) / 4);
}

/* Writes the set as a class sheet; answers 0 if that is done. */
static int store(const char *path)
{
    uint32_t blocks[1];
    size_t length;
    FILE *stream;
    int done;

    if (told("the set", lgt_write_class_sheet(set, LGT_CLASS_WORDS, sheet, sizeof sheet, blocks)) != LGT_ACCEPTED)
        return 1;
    length = (size_t)blocks[0] * LGT_BLOCK_BYTES;
    stream = fopen(path, "wb");
    if (stream == NULL) {
        perror(path);
        return 1;
    }
    done = fwrite(sheet, 1, length, stream) == length;
    done = fclose(stream) == 0 && done;
    if (!done) {
        fprintf(stderr, "%s could not be written\n", path);
        return 1;
    }
    printf("stored %" PRIu32 " block%s\n", blocks[0], blocks[0] == 1 ? "" : "s");
    return 0;
}

int main(int argc, char **argv)
{
    uint32_t file[LGT_FILE_ANSWER], i;

    if (argc != 4) {
        fprintf(stderr, "usage: members FROM.class FIRST-TARGET TO.bin\n");
        return 2;
    }
    if (load(argv[1], (uint32_t)strtoul(argv[2], NULL, 0), file) != 0)
        return 1;
    printf("class ");
    print_part(0, file[LGT_FILE_NAME_LENGTH]);
    if (file[LGT_FILE_PARENT_LENGTH] != 0) {
        printf(" extends ");
        print_part(file[LGT_FILE_NAME_LENGTH], file[LGT_FILE_PARENT_LENGTH]);
    }
    printf(" flags 0x%" PRIx32 "\n", file[LGT_FILE_FLAGS]);
    for (i = 0; i < file[LGT_FILE_METHODS]; i++)
        print_member("method", methods + LGT_METHOD_RECORD * i);
    for (i = 0; i < file[LGT_FILE_FIELDS]; i++)
        print_member("field", fields + LGT_FIELD_RECORD * i);
    lay_out(file);
    return store(argv[3]);
}
