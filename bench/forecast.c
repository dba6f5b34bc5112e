/* Times sheet_forecast against the walk alone (bench_walk), in one run, on the same streams: 64 MiB under XOR and under RC4, in large and in small records of one
   id, and in small ones whose ids are drawn: of records that are clear and of others, and of BoundSheet8 too. Each figure is the best of several rounds in which the two take turns. */
#define _GNU_SOURCE
#include "../include/sheet.h"
#include "common.h"
#include <stdint.h>
#include <stdio.h>
#include <stdlib.h>
#include <string.h>
#include <sys/mman.h>

size_t bench_walk(const uint8_t *stream, size_t stream_len);

enum { SIZE = 64 << 20, ROUNDS = 15, FILEPASS = 0x002f, BOF = 0x0809, BOUND_SHEET = 0x0085, EOF_ID = 0x000a, NUMBER = 0x0203, CLEAR = 4 };
static uint8_t *stream;
static size_t enciphered;

static size_t record(size_t at, unsigned id, size_t len)
{
    put(stream + at, 2, id);
    put(stream + at + 2, 2, len);
    return at + 4 + len;
}

/* BOF, a FILEPASS with a lock that no question refuses (1.1 of zeros, or XOR), records of a body length, EOF. Of how many ids those are drawn: others alone,
   clear ones too, BoundSheet8 too. */
static size_t make(int rc4, size_t body, unsigned drawn)
{
    static const unsigned ids[3] = {NUMBER, 0x00e1, BOUND_SHEET};
    uint64_t x = 88172645463325252u;
    enciphered = 0;
    size_t at = record(0, BOF, 16);
    size_t lock = at + 4;
    at = record(at, FILEPASS, rc4 ? 54 : 6);
    memset(stream + lock, 0, at - lock);
    if (rc4)
        for (int i = 0; i < 3; i++)
            put(stream + lock + 2 * i, 2, 1);
    while (at + 4 + body + 4 <= SIZE) {
        x ^= x << 13;
        x ^= x >> 7;
        x ^= x << 17;
        unsigned id = ids[(x >> 32) % drawn];
        enciphered += id == NUMBER ? body : id == BOUND_SHEET && body > CLEAR ? body - CLEAR : 0;
        at = record(at, id, body);
    }
    return record(at, EOF_ID, 0);
}

static void beside(int rc4, size_t body, unsigned drawn)
{
    size_t len = make(rc4, body, drawn), records = 0;
    double walk = 1e9, forecast = 1e9;
    uint64_t facts[8];
    for (int round = 0; round < ROUNDS; round++) {
        double t = now();
        records = bench_walk(stream, len);
        double u = now();
        uint32_t answer = sheet_forecast(stream, len, facts);
        double v = now();
        uint64_t keys = rc4 ? 1 + (len + 1023) / 1024 : 0;
        if (answer != 0 || facts[0] != len || facts[1] != records || facts[2] != enciphered || facts[3] != keys) {
            printf("sheet_forecast answered %u: %llu %llu %llu %llu\n", answer, (unsigned long long)facts[0], (unsigned long long)facts[1],
                   (unsigned long long)facts[2], (unsigned long long)facts[3]);
            exit(1);
        }
        walk = u - t < walk ? u - t : walk;
        forecast = v - u < forecast ? v - u : forecast;
    }
    printf("forecast, %s, ids drawn of %u, bodies of %zu, %zu records, %zu bytes: ", rc4 ? "RC4" : "XOR", drawn, body, records, len);
    printf("%.2f ms, the walk %.2f ms, ratio %.2f\n", forecast * 1e3, walk * 1e3, forecast / walk);
}

int main(void)
{
    stream = mmap(NULL, SIZE, PROT_READ | PROT_WRITE, MAP_PRIVATE | MAP_ANONYMOUS, -1, 0);
    if (stream == MAP_FAILED)
        return 1;
    beside(0, 8224, 1);
    beside(1, 8224, 1);
    beside(0, 14, 1);
    beside(1, 14, 1);
    beside(1, 0, 1);
    beside(1, 14, 2);
    beside(1, 14, 3);
    return 0;
}
