/* Times sheet_directory against the walk alone (bench_walk), in one run, on the same streams: 64 MiB with 300 sheets in rising order, in large and in small
   records, and the same sheets named in falling order. Each figure is the best of several rounds in which the two take turns. Then a stream of 1 MiB that
   is made to be slow. */
#define _GNU_SOURCE
#include "../include/sheet.h"
#include "common.h"
#include <stdint.h>
#include <stdio.h>
#include <stdlib.h>
#include <string.h>
#include <sys/mman.h>

size_t bench_walk(const uint8_t *stream, size_t stream_len);

enum { SIZE = 64 << 20, ROUNDS = 9, SHEETS = 300, BOUND_SHEET = 0x0085, BOF = 0x0809, EOF_ID = 0x000a, NUMBER = 0x0203 };
static uint8_t *stream;

static size_t record(size_t at, unsigned id, size_t len)
{
    put(stream + at, 2, id);
    put(stream + at + 2, 2, len);
    return at + 4 + len;
}

/* BOF, an entry for each sheet, EOF; then the sheets: BOF, records of a body length, EOF. Returns the start in the last entry */
static size_t make(size_t body, int falling, size_t *last)
{
    size_t at = record(0, BOF, 16), entries = at, start[SHEETS];
    for (int i = 0; i < SHEETS; i++)
        at = record(at, BOUND_SHEET, 12);
    at = record(at, EOF_ID, 0);
    size_t each = ((SIZE - at) / SHEETS - 24) / (4 + body);
    for (int i = 0; i < SHEETS; i++) {
        start[i] = at;
        at = record(at, BOF, 16);
        for (size_t k = 0; k < each; k++)
            at = record(at, NUMBER, body);
        at = record(at, EOF_ID, 0);
    }
    for (int i = 0; i < SHEETS; i++)
        put(stream + entries + 16 * i + 4, 4, start[falling ? SHEETS - 1 - i : i]);
    *last = start[falling ? 0 : SHEETS - 1];
    return at;
}

static void beside(size_t body, int falling)
{
    size_t last, len = make(body, falling, &last), records = 0;
    double walk = 1e9, directory = 1e9;
    uint64_t facts[8];
    for (int round = 0; round < ROUNDS; round++) {
        double t = now();
        records = bench_walk(stream, len);
        double u = now();
        uint32_t answer = sheet_directory(stream, len, SHEETS - 1, facts);
        double v = now();
        if (answer != 0 || facts[0] != SHEETS || facts[1] != 1 || facts[2] != last) {
            printf("sheet_directory answered %u: %llu %llu %llu\n", answer, (unsigned long long)facts[0], (unsigned long long)facts[1], (unsigned long long)facts[2]);
            exit(1);
        }
        walk = u - t < walk ? u - t : walk;
        directory = v - u < directory ? v - u : directory;
    }
    printf("directory, %s, bodies of %zu, %zu records, %zu bytes: ", falling ? "falling" : "rising", body, records, len);
    printf("%.2f ms, the walk %.2f ms, ratio %.2f\n", directory * 1e3, walk * 1e3, directory / walk);
}

/* BOF, as many entries as given, empty records, and at the end the given number of pairs of BOF and EOF. The entries name these in falling order, over and over: all but
   one of each run go back to the front, and from there over nearly all records */
static void hostile(size_t len, size_t entries, size_t pairs)
{
    size_t at = record(0, BOF, 0);
    for (size_t i = 0; i < entries; i++)
        at = record(at, BOUND_SHEET, 4);
    while (at + 4 + 8 * pairs + 4 <= len)
        at = record(at, NUMBER, 0);
    size_t first = at;
    for (size_t i = 0; i < pairs; i++) {
        at = record(at, BOF, 0);
        at = record(at, EOF_ID, 0);
    }
    at = record(at, EOF_ID, 0);
    for (size_t i = 0; i < entries; i++)
        put(stream + 4 + 8 * i + 4, 4, first + 8 * (pairs - 1 - i % pairs));
    uint64_t facts[8];
    double t = now();
    uint32_t answer = sheet_directory(stream, at, 0, facts);
    t = now() - t;
    if (answer != 0 || facts[0] != entries) {
        printf("sheet_directory answered %u: %llu\n", answer, (unsigned long long)facts[0]);
        exit(1);
    }
    printf("directory, hostile, %zu bytes, %zu entries, %zu pairs, %zu records: %.1f s\n", at, entries, pairs, bench_walk(stream, at), t);
}

int main(void)
{
    stream = mmap(NULL, SIZE, PROT_READ | PROT_WRITE, MAP_PRIVATE | MAP_ANONYMOUS, -1, 0);
    if (stream == MAP_FAILED)
        return 1;
    beside(8224, 0);
    beside(14, 0);
    beside(14, 1);
    hostile(1 << 20, 65000, 60);
    hostile(1 << 20, 130000, 60);
    hostile(1 << 20, 43000, 43000);
    return 0;
}
