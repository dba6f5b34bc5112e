/* Times sheet_open against plain C with OpenSSL's RC4, SHA-1 and MD5, in one run, on the same streams: 64 MiB under each lock, in large and in small
   records. Each figure is the best of several rounds in which the candidates take turns, on the same buffers; what each opens to is compared first. Then finds
   how deep into the stack a call goes, by painting it, with a short password and with one of 1,024 bytes, and asks question 4 on both sides of its boundary. */
#define _GNU_SOURCE
#include "../include/sheet.h"
#include "depth.h"
#include "stream.h"
#include <stdint.h>
#include <stdio.h>
#include <stdlib.h>
#include <string.h>
#include <sys/mman.h>

size_t gcc_open(const uint8_t *stream, size_t len, const uint8_t *password, size_t password_len, uint8_t *out);
size_t llvm_open(const uint8_t *stream, size_t len, const uint8_t *password, size_t password_len, uint8_t *out);

enum { SIZE = 64 << 20, ROUNDS = 7 };
static uint8_t *out, scratch[SHEET_SCRATCH_LEN];

static void by(int who, size_t len)
{
    uint64_t facts[8];
    switch (who) {
    case 0:
        if (sheet_open(stream, len, password, password_len, scratch, sizeof scratch, out, len, facts))
            exit(1);
        break;
    case 1: llvm_open(stream, len, password, password_len, out); break;
    default: gcc_open(stream, len, password, password_len, out); break;
    }
}

static void run(const char *name, int lock, size_t body)
{
    size_t len = make(lock, 128, body, SIZE);
    double best[3] = {1e9, 1e9, 1e9};
    for (int who = 0; who < 3; who++) {
        memset(out, 0, len);
        by(who, len);
        if (memcmp(out, plain, len)) {
            printf("%s: candidate %d opens to something else\n", name, who);
            exit(1);
        }
    }
    for (int round = 0; round < ROUNDS; round++)
        for (int who = 0; who < 3; who++) {
            double t = now();
            by(who, len);
            t = now() - t;
            if (t < best[who])
                best[who] = t;
        }
    printf("Open, %-35s %7.0f MB/s   %.2f of plain C by the same LLVM   %.2f of gcc -O3\n", name, len / best[0] / 1e6, best[1] / best[0], best[2] / best[0]);
}

static size_t called_len;
static uint32_t answer;

static void *call(void *who)
{
    uint64_t facts[8];
    answer = sheet_open(stream, called_len, password, password_len, scratch, sizeof scratch, out, called_len, facts);
    return who;
}

/* question 4, on both sides: a stream of zeros walks, and does not start with BOF */
static void longest(void)
{
    const size_t most = (size_t)1 << 30;
    uint8_t *in = mmap(NULL, most + 1, PROT_READ, MAP_PRIVATE | MAP_ANONYMOUS | MAP_NORESERVE, -1, 0);
    uint8_t *to = mmap(NULL, most + 1, PROT_READ | PROT_WRITE, MAP_PRIVATE | MAP_ANONYMOUS | MAP_NORESERVE, -1, 0);
    uint64_t facts[8];
    uint32_t fits = sheet_open(in, most, password, password_len, scratch, sizeof scratch, to, most, facts);
    uint32_t over = sheet_open(in, most + 1, password, password_len, scratch, sizeof scratch, to, most + 1, facts);
    printf("Open, a stream of 1 GiB of zeros: refused, %u; of one byte more: refused, %u\n", fits, over);
    if (fits != 7 || over != 4)
        exit(1);
}

int main(void)
{
    plain = malloc(SIZE);
    stream = malloc(SIZE);
    out = malloc(SIZE);
    static const char *locks[] = {"XOR", "1.1", "CryptoAPI 128"};
    for (int lock = 2; lock >= 0; lock--) {
        char name[64];
        snprintf(name, sizeof name, "%s, bodies of 8,224 bytes", locks[lock]);
        run(name, lock, 8224);
        snprintf(name, sizeof name, "%s, bodies of 14 bytes", locks[lock]);
        run(name, lock, 14);
    }
    for (int lock = 0; lock < 3; lock++) {
        called_len = make(lock, 128, 14, 1 << 16);
        size_t with_short = depth(call);
        if (answer)
            return 1;
        /* XOR takes at most 15 characters, so there the longest password is tried on the same stream and refused */
        uint8_t kept[PASSWORD_MAX + 1];
        size_t kept_len = password_len;
        memcpy(kept, password, sizeof kept);
        for (password_len = 0; password_len < PASSWORD_MAX; password_len++)
            password[password_len] = (uint8_t)('a' + password_len % 26);
        if (lock)
            called_len = make(lock, 128, 14, 1 << 16);
        size_t with_longest = depth(call);
        if (answer != (lock ? 0 : 27))
            return 1;
        memcpy(password, kept, sizeof kept);
        password_len = kept_len;
        printf("Open, %-35s %zu bytes of stack; with a password of 1,024 bytes %zu\n", locks[lock], with_short, with_longest);
    }
    longest();
    return 0;
}
