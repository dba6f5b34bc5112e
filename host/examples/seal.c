/* Seals a plain workbook stream that was opened before, under RC4 CryptoAPI with 128 bits, with static buffers and no
 * allocation of its own.
 *
 *   gcc host/examples/seal.c $(pkg-config --cflags --libs sheet) -o seal
 *   ./seal plain.bin host/examples/calibres.password sealed.bin
 *
 * Exit status: 0 sealed, 1 refused, 2 a file can't be read or written, or there are no random bytes.
 *
 * This wipes its copy of the password and no more. What is left of it on the stack and in registers, embed.c wipes too. */
#include <stdio.h>

#include "sheet_words.h"

/* Books of up to a mebibyte less one byte; and a password with the end of its line, and a byte that shows that it is longer. */
static uint8_t plain[1 << 20], sealed[1 << 20], scratch[SHEET_SCRATCH_LEN], password[SHEET_PASSWORD_MAX_LEN + 3];

/* Reads a file's first bytes into a buffer. Returns how many came, or -1 if it can't be read. */
static long read_file(const char *name, uint8_t *to, size_t room)
{
    FILE *file = fopen(name, "rb");
    if (file == NULL)
        return -1;
    /* Without a buffer of its own, in which the password would be left. */
    setvbuf(file, NULL, _IONBF, 0);
    size_t len = fread(to, 1, room, file);
    int failed = ferror(file) != 0;
    fclose(file);
    return failed ? -1 : (long)len;
}

int main(int count, char **arguments)
{
    uint64_t facts[8];
    uint8_t salt[16], verifier[16];
    long len = count == 4 ? read_file(arguments[1], plain, sizeof plain) : -1;
    long password_len = count == 4 ? read_file(arguments[2], password, sizeof password) : -1;
    if (len < 0 || len == sizeof plain || password_len < 0 || password_len == sizeof password) {
        fprintf(stderr, "usage: seal FILE PASSWORD-FILE OUT, where both files can be read and are not too long\n");
        return 2;
    }
    /* One LF or CRLF at the end of the password is not a part of it. */
    if (password_len > 0 && password[password_len - 1] == '\n')
        password_len -= password_len > 1 && password[password_len - 2] == '\r' ? 2 : 1;

    /* Fresh for each sealing: of two sheets with one password and one salt, most can be read without the password. */
    if (read_file("/dev/urandom", salt, sizeof salt) != sizeof salt ||
        read_file("/dev/urandom", verifier, sizeof verifier) != sizeof verifier) {
        fprintf(stderr, "there are no random bytes for a salt and a verifier\n");
        return 2;
    }
    uint32_t number = sheet_seal_cryptoapi(plain, (size_t)len, password, (size_t)password_len, salt, verifier, 4, 128, scratch,
                                           sizeof scratch, sealed, sizeof sealed, facts);
    /* Through a pointer to volatile, so that no compiler leaves it out. */
    for (volatile uint8_t *byte = password; byte < password + sizeof password; byte++)
        *byte = 0;
    if (number != SHEET_DONE) {
        fprintf(stderr, "refused, %lu: %s (details %llu, %llu)\n", (unsigned long)number, sheet_refusal_words(number),
                (unsigned long long)facts[SHEET_DETAIL_1], (unsigned long long)facts[SHEET_DETAIL_2]);
        return 1;
    }

    FILE *out = fopen(arguments[3], "wb");
    if (out == NULL || fwrite(sealed, 1, (size_t)len, out) != (size_t)len || fclose(out) != 0) {
        fprintf(stderr, "%s can't be written\n", arguments[3]);
        return 2;
    }
    printf("%llu records, %llu enciphered bytes\n", (unsigned long long)facts[SHEET_REPORT_RECORDS],
           (unsigned long long)facts[SHEET_REPORT_ENCIPHERED_BODY_BYTES]);
    return 0;
}
