/* Opens a locked workbook stream, shows what it is, seals it again under the same password and lock, and opens that, with
 * static buffers and no allocation.
 *
 *   gcc -Wl,-z,now -I include host/examples/embed.c target/staticlib/libsheet.a -o embed
 *   ./embed host/examples/calibres.bin < host/examples/calibres.password
 *
 * The password comes from standard input, one line of UTF-8, which ends with LF, CRLF or nothing. Exit status: 0 done,
 * 1 refused, 2 not read or no random bytes.
 *
 * -z now has all functions bound at the start: bound at their first call, they would have the vector registers saved to the
 * stack, in which parts of what is to be wiped are left. */
#define _DEFAULT_SOURCE /* For getentropy, where the compiler is asked for a standard alone. */
#include <fcntl.h>
#include <stdio.h>
#include <string.h>
#include <unistd.h>

#include "sheet_words.h"

static uint8_t stream[1 << 16], plain[1 << 16], again[1 << 16];
static uint8_t scratch[SHEET_SCRATCH_LEN], password[SHEET_PASSWORD_MAX_LEN + 3];

static const char *const locks[] = {"XOR", "Office 97 RC4", "RC4 CryptoAPI"};

/* Reads a file into a buffer. Returns how many bytes came, or -1 if it can't be read or fills the buffer. */
static ssize_t read_all(int file, uint8_t *to, size_t room)
{
    size_t len = 0;
    ssize_t came = file < 0 ? -1 : 1;
    while (came > 0 && len < room) {
        came = read(file, to + len, room - len);
        len += came > 0 ? (size_t)came : 0;
    }
    return came < 0 || len == room ? -1 : (ssize_t)len;
}

/* Overwrites memory though nobody reads it afterwards. */
static void wipe(void *memory, size_t len)
{
    for (volatile uint8_t *byte = memory; len > 0; len--)
        *byte++ = 0;
}

/* The calls, and what overwrites the stack that they used: functions that are not inlined, called from the same one. */
__attribute__((noinline)) static uint32_t call_open(uint8_t *to, size_t len, size_t password_len, uint64_t facts[8])
{
    return sheet_open(stream, len, password, password_len, scratch, sizeof scratch, to, sizeof plain, facts);
}

/* Seals the plain stream into the stream's buffer, under a lock with a key size. Salt and verifier are 16 random bytes each.
 * CryptoAPI becomes version 4.2, and says that the document summary is not enciphered. */
__attribute__((noinline)) static uint32_t call_seal(uint64_t lock, uint64_t key_bits, const uint8_t fresh[32], size_t len,
                                                    size_t password_len, uint64_t facts[8])
{
    const uint8_t *salt = fresh, *verifier = fresh + 16;
    switch (lock) {
    case SHEET_LOCK_XOR:
        return sheet_seal_xor(plain, len, password, password_len, scratch, sizeof scratch, stream, sizeof stream, facts);
    case SHEET_LOCK_OFFICE97:
        return sheet_seal_office97(plain, len, password, password_len, salt, verifier, scratch, sizeof scratch, stream,
                                   sizeof stream, facts);
    default:
        return sheet_seal_cryptoapi(plain, len, password, password_len, salt, verifier, 4, (uint32_t)key_bits, scratch,
                                    sizeof scratch, stream, sizeof stream, facts);
    }
}

__attribute__((noinline)) static void scrub_stack(void)
{
    uint8_t region[16 * 1024];
    wipe(region, sizeof region);
}

/* Shows what was opened. */
static void show(const uint64_t facts[8])
{
    printf("lock: %s, %llu bits\n", locks[facts[SHEET_REPORT_LOCK]], (unsigned long long)facts[SHEET_REPORT_KEY_BITS]);
    printf("document summary: %s\n", facts[SHEET_REPORT_SUMMARY_SEALED] ? "enciphered too" : "not enciphered");
    printf("%llu records, %llu bytes, %llu of them enciphered\n", (unsigned long long)facts[SHEET_REPORT_RECORDS],
           (unsigned long long)facts[SHEET_REPORT_OUTPUT_BYTES],
           (unsigned long long)facts[SHEET_REPORT_ENCIPHERED_BODY_BYTES]);
}

int main(int count, char **arguments)
{
    uint64_t facts[8];
    uint8_t fresh[32];
    ssize_t len = read_all(count == 2 ? open(arguments[1], O_RDONLY) : -1, stream, sizeof stream);
    ssize_t password_len = len < 0 ? -1 : read_all(STDIN_FILENO, password, sizeof password);
    if (password_len < 0) {
        fprintf(stderr, "usage: embed FILE < PASSWORD, of at most %zu and %d bytes\n", sizeof stream - 1,
                SHEET_PASSWORD_MAX_LEN);
        return 2;
    }
    /* One newline is not part of the password, LF or CRLF. */
    if (password_len > 0 && password[password_len - 1] == '\n') {
        password_len--;
        if (password_len > 0 && password[password_len - 1] == '\r')
            password_len--;
    }
    /* Salt and verifier come from the system's random source, anew for each sealing. */
    if (getentropy(fresh, sizeof fresh) != 0) {
        wipe(password, sizeof password);
        fprintf(stderr, "no random bytes for a salt and a verifier\n");
        return 2;
    }
    uint32_t number = call_open(plain, (size_t)len, (size_t)password_len, facts);
    scrub_stack();
    if (number == SHEET_DONE) {
        show(facts);
        number = call_seal(facts[SHEET_REPORT_LOCK], facts[SHEET_REPORT_KEY_BITS], fresh, (size_t)len, (size_t)password_len,
                           facts);
        scrub_stack();
    }
    if (number == SHEET_DONE) {
        number = call_open(again, (size_t)len, (size_t)password_len, facts);
        scrub_stack();
    }
    wipe(password, sizeof password);
    wipe(fresh, sizeof fresh);
    if (number != SHEET_DONE) {
        fprintf(stderr, "refused, %u: %s (%llu, %llu)\n", number, sheet_refusal_words(number),
                (unsigned long long)facts[SHEET_DETAIL_1], (unsigned long long)facts[SHEET_DETAIL_2]);
        return 1;
    }
    int same = memcmp(plain, again, (size_t)len) == 0;
    printf("sealed and opened again: %s\n", same ? "the same" : "another stream");
    return same ? 0 : 1;
}
