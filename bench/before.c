/* Times the key mixing, the walk, the forecast and Open, of long books and of a short one, of two trees' archives, in one run, on the same
   keys, streams and buffers: this tree's, and an earlier one's, whose functions have before_ ahead of their names. Each figure is the best of several rounds in
   which the two take turns; what each computes is compared with OpenSSL's keystream, and with the plain stream. */
#include "../include/sheet.h"
#include "stream.h"
#include <stdbool.h>
#include <stdint.h>
#include <stdio.h>
#include <stdlib.h>

#define TREE(p) \
    bool p##bench_rc4(const uint8_t *key, size_t key_len, const uint8_t *src, size_t src_len, uint8_t *dst, size_t dst_len); \
    bool p##bench_rc4_halves(const uint8_t *key, size_t key_len, const uint8_t *other, size_t other_len, const uint8_t *src, size_t src_len, uint8_t *dst, size_t dst_len); \
    size_t p##bench_walk(const uint8_t *stream, size_t stream_len); \
    uint32_t p##sheet_forecast(const uint8_t *stream, size_t stream_len, uint64_t facts[8]); \
    uint32_t p##sheet_open(const uint8_t *stream, size_t stream_len, const uint8_t *password, size_t password_len, uint8_t *scratch, size_t scratch_len, uint8_t *output, size_t output_len, uint64_t facts[8]);
TREE()
TREE(before_)

enum { SIZE = 64 << 20, ROUNDS = 9, MIXINGS = 20000, SHORT_BOOKS = 20000, BLOCK = 1024 };
static const uint8_t key[16] = "a key of sixteen", other[16] = "sixteen of a key", zeros[2 * BLOCK];
static uint8_t *out, scratch[4096]; /* more than either tree asks for */

/* ends the run unless the output is what it must be */
static void compare(const char *name, int who, const uint8_t *expected, size_t len)
{
    if (memcmp(out, expected, len)) {
        printf("%s: %s computes something else\n", name, who ? "the earlier tree" : "this tree");
        exit(1);
    }
}

/* the keystreams of one key, or of two keys of one length; of no bytes, the mixing is all that is done */
static void keystreams(int who, int keys, size_t key_len, size_t len)
{
    bool ok;
    if (keys == 1)
        ok = (who ? before_bench_rc4 : bench_rc4)(key, key_len, zeros, len, out, len);
    else
        ok = (who ? before_bench_rc4_halves : bench_rc4_halves)(key, key_len, other, key_len, zeros, 2 * len, out, 2 * len);
    if (!ok) {
        printf("a key of %zu bytes: %s makes no keystream\n", key_len, who ? "the earlier tree" : "this tree");
        exit(1);
    }
}

static void mixing(int keys, size_t key_len)
{
    char name[64];
    uint8_t expected[2 * BLOCK];
    RC4_KEY state;
    double best[2] = {1e9, 1e9};
    snprintf(name, sizeof name, "mixing, %s of %zu bytes", keys == 1 ? "one key" : "two keys", key_len);
    for (int n = 0; n < keys; n++) {
        RC4_set_key(&state, (int)key_len, n ? other : key);
        RC4(&state, BLOCK, zeros, expected + BLOCK * n);
    }
    for (int who = 0; who < 2; who++) {
        memset(out, 0, BLOCK * keys);
        keystreams(who, keys, key_len, BLOCK);
        compare(name, who, expected, BLOCK * keys);
    }
    for (int round = 0; round < ROUNDS; round++)
        for (int who = 0; who < 2; who++) {
            double t = now();
            for (int n = 0; n < MIXINGS; n++)
                keystreams(who, keys, key_len, 0);
            t = now() - t;
            if (t < best[who])
                best[who] = t;
        }
    printf("%-42s before %5.0f ns   now %5.0f ns   %.3f times as fast\n", name, best[1] / MIXINGS * 1e9, best[0] / MIXINGS * 1e9, best[1] / best[0]);
}

/* the walk alone, and the forecast, which must count the same records */
static void walking(size_t body)
{
    size_t len = make(2, 128, body, SIZE);
    double best[2][2] = {{1e9, 1e9}, {1e9, 1e9}};
    for (int round = 0; round < ROUNDS; round++)
        for (int who = 0; who < 2; who++) {
            uint64_t facts[8];
            double t = now();
            size_t records = (who ? before_bench_walk : bench_walk)(stream, len);
            double u = now();
            uint32_t answer = (who ? before_sheet_forecast : sheet_forecast)(stream, len, facts);
            double v = now();
            if (answer || facts[1] != records) {
                printf("%s forecasts something else\n", who ? "the earlier tree" : "this tree");
                exit(1);
            }
            if (u - t < best[0][who])
                best[0][who] = u - t;
            if (v - u < best[1][who])
                best[1][who] = v - u;
        }
    for (int n = 0; n < 2; n++)
        printf("%s, bodies of %-26zu before %5.2f ms   now %5.2f ms   %.3f times as fast\n", n ? "forecast" : "walk    ", body, best[n][1] * 1e3, best[n][0] * 1e3, best[n][1] / best[n][0]);
}

static void opening(int lock, unsigned bits, size_t body)
{
    char name[64];
    size_t len = make(lock, bits, body, SIZE);
    double best[2] = {1e9, 1e9};
    uint64_t facts[8];
    if (lock)
        snprintf(name, sizeof name, "Open, CryptoAPI %u, bodies of %zu bytes", bits, body);
    else
        snprintf(name, sizeof name, "Open, XOR, bodies of %zu bytes", body);
    for (int round = 0; round < ROUNDS; round++)
        for (int who = 0; who < 2; who++) {
            if (round == 0)
                memset(out, 0, len);
            double t = now();
            uint32_t answer = (who ? before_sheet_open : sheet_open)(stream, len, password, password_len, scratch, sizeof scratch, out, len, facts);
            t = now() - t;
            if (answer) {
                printf("%s: %s refuses, %u\n", name, who ? "the earlier tree" : "this tree", answer);
                exit(1);
            }
            if (round == 0)
                compare(name, who, plain, len);
            if (t < best[who])
                best[who] = t;
        }
    printf("%-42s before %5.0f MB/s   now %5.0f MB/s   %.3f times as fast\n", name, len / best[1] / 1e6, len / best[0] / 1e6, best[1] / best[0]);
}

/* a short book, opened many times over: what a call costs besides its bytes */
static void short_book(const char *name, int lock)
{
    size_t len = make(lock, 128, 14, 300);
    double best[2] = {1e9, 1e9};
    uint64_t facts[8];
    for (int round = 0; round < ROUNDS; round++)
        for (int who = 0; who < 2; who++) {
            uint32_t answers = 0;
            memset(out, 0, len);
            double t = now();
            for (int n = 0; n < SHORT_BOOKS; n++)
                answers |= (who ? before_sheet_open : sheet_open)(stream, len, password, password_len, scratch, sizeof scratch, out, len, facts);
            t = now() - t;
            if (answers) {
                printf("%s: %s refuses\n", name, who ? "the earlier tree" : "this tree");
                exit(1);
            }
            compare(name, who, plain, len);
            if (t < best[who])
                best[who] = t;
        }
    printf("Open, %s, a book of %-16zu before %5.0f ns    now %5.0f ns     %.3f times as fast\n", name, len, best[1] * 1e9 / SHORT_BOOKS, best[0] * 1e9 / SHORT_BOOKS, best[1] / best[0]);
}

int main(void)
{
    static const size_t lengths[] = {5, 7, 13, 16};
    static const unsigned sizes[] = {128, 56};
    plain = malloc(SIZE);
    stream = malloc(SIZE);
    out = malloc(SIZE);
    for (int keys = 1; keys <= 2; keys++)
        for (size_t i = 0; i < sizeof lengths / sizeof *lengths; i++)
            mixing(keys, lengths[i]);
    walking(8224);
    walking(14);
    for (int i = 0; i < 2; i++) {
        opening(2, sizes[i], 8224);
        opening(2, sizes[i], 14);
    }
    opening(0, 0, 8224);
    opening(0, 0, 14);
    short_book("XOR      ", 0);
    short_book("1.1      ", 1);
    short_book("CryptoAPI", 2);
    return 0;
}
