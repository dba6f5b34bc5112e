/* Times the proved hashes, RC4 and XOR obfuscation against plain C and OpenSSL, in one run, on the same bytes and buffers. Each figure is the best of
   several rounds in which the candidates take turns. What they compute is compared first. */
#include "common.h"
#include <openssl/md5.h>
#include <openssl/rc4.h>
#include <openssl/sha.h>
#include <stdbool.h>
#include <stddef.h>
#include <stdint.h>
#include <stdio.h>
#include <stdlib.h>
#include <string.h>

void bench_sha1(const uint8_t *m, size_t len, uint8_t out[20]);
void bench_md5(const uint8_t *m, size_t len, uint8_t out[16]);
bool bench_rc4(const uint8_t *key, size_t key_len, const uint8_t *src, size_t src_len, uint8_t *dst, size_t dst_len);
bool bench_rc4_halves(const uint8_t *key, size_t key_len, const uint8_t *other, size_t other_len, const uint8_t *src, size_t src_len, uint8_t *dst, size_t dst_len);
void bench_xor(const uint8_t array[16], size_t index, const uint8_t *src, size_t src_len, uint8_t *dst, size_t dst_len);

#define PLAIN(p) \
    void p##sha1(const uint8_t *m, size_t len, uint8_t out[20]); \
    void p##md5(const uint8_t *m, size_t len, uint8_t out[16]); \
    void p##rc4(const uint8_t *key, size_t key_len, const uint8_t *src, uint8_t *dst, size_t len); \
    void p##xor(const uint8_t array[16], size_t index, const uint8_t *src, uint8_t *dst, size_t len);
PLAIN(gcc_)
PLAIN(llvm_)

enum { SIZE = 16 << 20, LARGE = 64 << 20, ROUNDS = 9, SHORT = 24, SHORTS = 1 << 17, PIECE = 2048, RECORD = 20, RECORDS = 1 << 17 };
static uint8_t *data, *out, *first, digest[20];
static const uint8_t key[16] = "a key of sixteen", other[16] = "sixteen of a key";

static void sha1_by(int who, const uint8_t *m, size_t len)
{
    switch (who) {
    case 0: bench_sha1(m, len, digest); break;
    case 1: llvm_sha1(m, len, digest); break;
    case 2: gcc_sha1(m, len, digest); break;
    default: SHA1(m, len, digest); break;
    }
}

static void md5_by(int who, const uint8_t *m, size_t len)
{
    switch (who) {
    case 0: bench_md5(m, len, digest); break;
    case 1: llvm_md5(m, len, digest); break;
    case 2: gcc_md5(m, len, digest); break;
    default: MD5(m, len, digest); break;
    }
}

static void rc4_by(int who, const uint8_t *m, size_t len)
{
    RC4_KEY state;
    switch (who) {
    case 0: bench_rc4(key, 16, m, len, out, len); break;
    case 1: llvm_rc4(key, 16, m, out, len); break;
    case 2: gcc_rc4(key, 16, m, out, len); break;
    default: RC4_set_key(&state, 16, key); RC4(&state, len, m, out); break;
    }
}

/* the halves of a part under two keys, the key setups included */
static void halves_by(int who, size_t at, size_t len)
{
    RC4_KEY state;
    size_t h = len / 2;
    switch (who) {
    case 0: bench_rc4_halves(key, 16, other, 16, data + at, len, out + at, len); break;
    case 1: llvm_rc4(key, 16, data + at, out + at, h); llvm_rc4(other, 16, data + at + h, out + at + h, h); break;
    case 2: gcc_rc4(key, 16, data + at, out + at, h); gcc_rc4(other, 16, data + at + h, out + at + h, h); break;
    default:
        RC4_set_key(&state, 16, key); RC4(&state, h, data + at, out + at);
        RC4_set_key(&state, 16, other); RC4(&state, h, data + at + h, out + at + h);
        break;
    }
}

static void halves_whole(int who, const uint8_t *m, size_t len)
{
    (void)m;
    halves_by(who, 0, len);
}

static void halves_pieces(int who, const uint8_t *m, size_t len)
{
    (void)m;
    for (size_t i = 0; i < len; i += PIECE)
        halves_by(who, i, PIECE);
}

/* the fourth copies: no byte can go through faster */
static void xor_part(int who, size_t index, size_t at, size_t len)
{
    switch (who) {
    case 0: bench_xor(key, index, data + at, len, out + at, len); break;
    case 1: llvm_xor(key, index, data + at, out + at, len); break;
    case 2: gcc_xor(key, index, data + at, out + at, len); break;
    default: memcpy(out + at, data + at, len); break;
    }
}

static void xor_by(int who, const uint8_t *m, size_t len)
{
    (void)m;
    xor_part(who, 3, 0, len);
}

static void xor_records(int who, const uint8_t *m, size_t len)
{
    (void)m;
    for (size_t i = 0; i < len; i += RECORD)
        xor_part(who, i, i, RECORD);
}

static void sha1_short(int who, const uint8_t *m, size_t len)
{
    for (size_t i = 0; i < len; i += SHORT)
        sha1_by(who, m + i, SHORT);
}

static void md5_short(int who, const uint8_t *m, size_t len)
{
    for (size_t i = 0; i < len; i += SHORT)
        md5_by(who, m + i, SHORT);
}

static void run(const char *name, void (*by)(int, const uint8_t *, size_t), size_t len, int compared, const char *fourth)
{
    double best[4] = {1e9, 1e9, 1e9, 1e9};
    uint8_t *made = compared < 0 ? out : digest;
    size_t made_len = compared < 0 ? len : (size_t)compared;
    for (int who = 0; who < (strcmp(fourth, "memcpy") ? 4 : 3); who++) {
        memset(made, 0, made_len);
        by(who, data, len);
        if (who == 0)
            memcpy(first, made, made_len);
        else if (memcmp(first, made, made_len)) {
            printf("%s: candidate %d computes something else\n", name, who);
            exit(1);
        }
    }
    for (int round = 0; round < ROUNDS; round++)
        for (int who = 0; who < 4; who++) {
            double t = now();
            by(who, data, len);
            t = now() - t;
            if (t < best[who])
                best[who] = t;
        }
    printf("%-30s %7.0f MB/s   %.2f of plain C by the same LLVM   %.2f of gcc -O3   %.2f of %s\n", name, len / best[0] / 1e6, best[1] / best[0], best[2] / best[0], best[3] / best[0], fourth);
}

int main(void)
{
    data = malloc(LARGE);
    out = malloc(LARGE);
    first = malloc(LARGE);
    uint64_t x = 88172645463325252u;
    for (size_t i = 0; i < LARGE; i++) {
        x ^= x << 13; x ^= x >> 7; x ^= x << 17;
        data[i] = (uint8_t)x;
    }
    run("SHA-1, 16 MiB", sha1_by, SIZE, 20, "OpenSSL");
    run("SHA-1, messages of 24 bytes", sha1_short, (size_t)SHORT * SHORTS, 20, "OpenSSL");
    run("MD5, 16 MiB", md5_by, SIZE, 16, "OpenSSL");
    run("MD5, messages of 24 bytes", md5_short, (size_t)SHORT * SHORTS, 16, "OpenSSL");
    run("RC4, one stream of 16 MiB", rc4_by, SIZE, -1, "OpenSSL");
    run("RC4, two streams of 8 MiB", halves_whole, SIZE, -1, "OpenSSL");
    run("RC4, two keys for 2,048 bytes", halves_pieces, SIZE, -1, "OpenSSL");
    run("XOR, 64 MiB", xor_by, LARGE, -1, "memcpy");
    run("XOR, records of 20 bytes", xor_records, (size_t)RECORD * RECORDS, -1, "memcpy");
    return 0;
}
