/* Times sealing against opening, in one run, in turns, on the same streams of 64 MiB: each figure is the median of ten rounds. What is sealed is compared with the stream
   that OpenSSL locked, behind its FILEPASS, and what is opened with the plain stream. Then finds how deep into the stack sealing goes. */
#define _GNU_SOURCE
#include "../include/sheet.h"
#include "depth.h"
#include "stream.h"
#include <stdio.h>
#include <stdlib.h>

enum { SIZE = 64 << 20, ROUNDS = 10 };
static uint8_t *out, scratch[SHEET_SCRATCH_LEN];

static int by_time(const void *a, const void *b)
{
    double x = *(const double *)a, y = *(const double *)b;
    return x < y ? -1 : x > y;
}

/* the mean of the two in the middle */
static double median(double t[ROUNDS])
{
    qsort(t, ROUNDS, sizeof *t, by_time);
    return (t[ROUNDS / 2 - 1] + t[ROUNDS / 2]) / 2;
}

static uint32_t seal(int lock, size_t len, uint64_t facts[8])
{
    static const uint8_t salt[16] = "salt of 16 bytes";
    uint8_t verifier[16];
    memset(verifier, 0x5a, sizeof verifier);
    if (lock == 0)
        return sheet_seal_xor(plain, len, password, password_len, scratch, sizeof scratch, out, len, facts);
    if (lock == 1)
        return sheet_seal_office97(plain, len, password, password_len, salt, verifier, scratch, sizeof scratch, out, len, facts);
    return sheet_seal_cryptoapi(plain, len, password, password_len, salt, verifier, 2, 128, scratch, sizeof scratch, out, len, facts);
}

static void check(const char *name, uint32_t answer, const uint8_t *expected, size_t from, size_t len)
{
    if (answer != 0 || memcmp(out + from, expected + from, len - from) != 0) {
        printf("%s: answered %u, or wrote something else\n", name, answer);
        exit(1);
    }
}

static void beside(const char *name, int lock, size_t body)
{
    size_t len = make(lock, 128, body, SIZE), behind = 24 + (lock == 0 ? 6 : lock == 1 ? 54 : 106);
    double sealing[ROUNDS], opening[ROUNDS];
    uint64_t facts[8];
    for (int round = 0; round < ROUNDS; round++) {
        double t = now();
        uint32_t answer = sheet_open(stream, len, password, password_len, scratch, sizeof scratch, out, len, facts);
        opening[round] = now() - t;
        check("opening", answer, plain, 0, len);
        t = now();
        answer = seal(lock, len, facts);
        sealing[round] = now() - t;
        check("sealing", answer, stream, behind, len);
    }
    double o = median(opening), s = median(sealing);
    printf("%s, bodies of %5zu: sealing %6.0f MB/s, opening %6.0f MB/s, sealing takes %.3f of the time of opening\n", name, body, len / s / 1e6, len / o / 1e6, s / o);
}

static int called_lock;
static size_t called_len;
static uint32_t answer;

static void *call(void *who)
{
    uint64_t facts[8];
    answer = seal(called_lock, called_len, facts);
    return who;
}

int main(void)
{
    plain = malloc(SIZE);
    stream = malloc(SIZE);
    out = malloc(SIZE);
    if (!plain || !stream || !out)
        return 1;
    static const char *names[] = {"XOR          ", "1.1          ", "CryptoAPI 128"};
    for (int lock = 0; lock < 3; lock++) {
        beside(names[lock], lock, 8224);
        beside(names[lock], lock, 14);
    }
    for (called_lock = 0; called_lock < 3; called_lock++) {
        called_len = make(called_lock, 128, 14, 1 << 16);
        size_t deep = depth(call);
        if (answer)
            return 1;
        printf("%s: sealing takes %zu bytes of stack\n", names[called_lock], deep);
    }
    return 0;
}
