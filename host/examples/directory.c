/* Lists the sheets of a workbook stream and where they start, locked or not, with a static buffer and no allocation of its own.
 *
 *   gcc host/examples/directory.c $(pkg-config --cflags --libs sheet) -o directory
 *   ./directory host/examples/calibres.bin
 *
 * Prints a line for each sheet: its place, counted from 0, a tab, and the offset of its BOF record. Exit status: 0 listed,
 * 1 refused, 2 the file can't be read. */
#include <stdio.h>

#include "sheet_words.h"

/* Books of up to a mebibyte less one byte. A longer one that is made to be slow would keep sheet_directory busy for long. */
static uint8_t stream[1 << 20];

/* The id of a BoundSheet8 record, which is the entry of a sheet. */
#define BOUND_SHEET 0x0085

int main(int count, char **arguments)
{
    uint64_t facts[8];
    FILE *file = count == 2 ? fopen(arguments[1], "rb") : NULL;
    size_t len = file == NULL ? 0 : fread(stream, 1, sizeof stream, file);
    if (file == NULL || ferror(file) || len == sizeof stream) {
        fprintf(stderr, "usage: directory FILE, where the file can be read and is shorter than %zu bytes\n", sizeof stream);
        return 2;
    }
    fclose(file);

    uint32_t number = sheet_directory(stream, len, 0, facts);
    if (number != SHEET_DONE) {
        fprintf(stderr, "refused, %lu: %s (detail %llu)\n", (unsigned long)number, sheet_refusal_words(number),
                (unsigned long long)facts[SHEET_DETAIL_1]);
        return 1;
    }

    /* Every call of sheet_directory reads the whole stream. The directory is in order, so the entries can be read in one walk,
     * and each has the start of its sheet in the first four bytes of its body, the lowest first. */
    unsigned long long sheets = facts[SHEET_DIRECTORY_SHEETS], place = 0;
    for (size_t at = 0; place < sheets && sheet_record(stream, len, at, facts) == SHEET_RECORD_FOUND;
         at += 4 + (size_t)facts[SHEET_RECORD_BODY_LEN]) {
        const uint8_t *body = stream + at + 4;
        if (facts[SHEET_RECORD_ID] == BOUND_SHEET)
            printf("%llu\t%llu\n", place++,
                   (unsigned long long)body[0] | (unsigned long long)body[1] << 8 | (unsigned long long)body[2] << 16 |
                       (unsigned long long)body[3] << 24);
    }
    return 0;
}
