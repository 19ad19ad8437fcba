/*
 * Makes a class sheet of 17-word class records one of 18 words, or back. Usage: convert widen OLD NEW, or convert narrow NEW OLD, where
 * OLD and NEW are two files: the form cannot be seen from the bytes, so the sheet that was given stays.
 */
#include <inttypes.h>
#include <stdio.h>
#include <string.h>
#include <sys/stat.h>

#include "lgt_linker.h"

/* A byte more than the longest sheet, so that a longer file is refused and not cut. */
static uint8_t from[LGT_CLASS_BYTES + 1], to[LGT_CLASS_BYTES];

/* Whether the two paths name one file, by another name or a link too. */
static int same_file(const char *one, const char *other)
{
    struct stat a, b;

    return strcmp(one, other) == 0 || (stat(one, &a) == 0 && stat(other, &b) == 0 && a.st_dev == b.st_dev && a.st_ino == b.st_ino);
}

int main(int argc, char **argv)
{
    uint32_t answer[1], refusal;
    size_t length;
    FILE *file;

    if (argc != 4 || (strcmp(argv[1], "widen") != 0 && strcmp(argv[1], "narrow") != 0) || same_file(argv[2], argv[3])) {
        fprintf(stderr, "usage: convert widen OLD NEW, or convert narrow NEW OLD; the two are different files\n");
        return 2;
    }
    file = fopen(argv[2], "rb");
    if (file == NULL) {
        perror(argv[2]);
        return 2;
    }
    length = fread(from, 1, sizeof from, file);
    fclose(file);
    if (argv[1][0] == 'w')
        refusal = lgt_widen_class_sheet(from, length, to, sizeof to, answer);
    else
        refusal = lgt_narrow_class_sheet(from, length, to, sizeof to, answer);
    if (refusal != LGT_ACCEPTED) {
        printf("%s refused %" PRIu32 "\n  To mend: %s\n", argv[2], refusal, lgt_refusal_text(refusal));
        return 1;
    }
    length = (size_t)answer[0] * LGT_BLOCK_BYTES;
    file = fopen(argv[3], "wb");
    if (file == NULL || fwrite(to, 1, length, file) != length || fclose(file) != 0) {
        perror(argv[3]);
        return 2;
    }
    printf("%" PRIu32 " blocks\n", answer[0]);
    return 0;
}
