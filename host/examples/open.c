/* Opens a locked workbook stream, with static buffers and no allocation of its own.
 *
 *   gcc host/examples/open.c $(pkg-config --cflags --libs sheet) -o open
 *   ./open host/examples/calibres.bin host/examples/calibres.password plain.bin
 *
 * OUT is replaced if it is there, so it must not be FILE. Exit status: 0 opened, 1 refused, 2 a file can't be read or
 * written.
 *
 * This wipes its copy of the password and no more. What is left of it on the stack and in registers, embed.c wipes too. */
#include <stdio.h>
#include <sys/stat.h>

#include "sheet_words.h"

/* Books of up to a mebibyte less one byte; and a password with the end of its line, and a byte that shows that it is longer. */
static uint8_t stream[1 << 20], plain[1 << 20], scratch[SHEET_SCRATCH_LEN], password[SHEET_PASSWORD_MAX_LEN + 3];

/* Reads a file into a buffer, which is longer than it. Returns the file's length, or -1 if it can't be read or does not fit. */
static long read_file(const char *name, uint8_t *to, size_t room)
{
    FILE *file = fopen(name, "rb");
    if (file == NULL)
        return -1;
    /* Without a buffer of its own, in which the password would be left. */
    setvbuf(file, NULL, _IONBF, 0);
    size_t len = fread(to, 1, room, file);
    int failed = ferror(file) != 0 || len == room;
    fclose(file);
    return failed ? -1 : (long)len;
}

/* Takes one LF or CRLF off the end of a password. Returns how long it is then. */
static size_t without_line_end(const uint8_t *text, size_t len)
{
    if (len > 0 && text[len - 1] == '\n') {
        len--;
        if (len > 0 && text[len - 1] == '\r')
            len--;
    }
    return len;
}

int main(int count, char **arguments)
{
    uint64_t facts[8];
    long len = count == 4 ? read_file(arguments[1], stream, sizeof stream) : -1;
    long password_len = count == 4 ? read_file(arguments[2], password, sizeof password) : -1;
    if (len < 0 || password_len < 0) {
        fprintf(stderr, "usage: open FILE PASSWORD-FILE OUT, where both files can be read and are not too long\n");
        return 2;
    }

    uint32_t number = sheet_open(stream, (size_t)len, password, without_line_end(password, (size_t)password_len), scratch,
                                 sizeof scratch, plain, sizeof plain, facts);
    /* Through a pointer to volatile, so that no compiler leaves it out. */
    for (volatile uint8_t *byte = password; byte < password + sizeof password; byte++)
        *byte = 0;
    if (number != SHEET_DONE) {
        fprintf(stderr, "refused, %lu: %s (details %llu, %llu)\n", (unsigned long)number, sheet_refusal_words(number),
                (unsigned long long)facts[SHEET_DETAIL_1], (unsigned long long)facts[SHEET_DETAIL_2]);
        return 1;
    }

    /* A new file is for its owner alone, as it is plain. */
    umask(077);
    FILE *out = fopen(arguments[3], "wb");
    if (out == NULL || fwrite(plain, 1, (size_t)len, out) != (size_t)len || fclose(out) != 0) {
        fprintf(stderr, "%s can't be written\n", arguments[3]);
        return 2;
    }
    printf("%llu records, %llu bytes\n", (unsigned long long)facts[SHEET_REPORT_RECORDS],
           (unsigned long long)facts[SHEET_REPORT_OUTPUT_BYTES]);
    return 0;
}
