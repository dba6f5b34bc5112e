/* Times sheet_same_lock against sheet_look at both streams, in one run, by the length of the FILEPASS bodies: equal bodies, bodies that differ in the first byte, and a body that
   has one byte less. Each figure is the best of several rounds in which all of them take turns, each called many times. */
#define _GNU_SOURCE
#include "../include/sheet.h"
#include "common.h"
#include <stdint.h>
#include <stdio.h>
#include <stdlib.h>
#include <string.h>

enum { ROUNDS = 15, CALLS = 400, FILEPASS = 0x002f, BOF = 0x0809, FRONT = 4 + 16 + 4, MOST = 65535 };
static uint8_t first[FRONT + MOST], second[FRONT + MOST];

/* BOF, and a FILEPASS with a body whose version has no key size. */
static void make(uint8_t *stream, size_t body)
{
    memset(stream, 1, FRONT + body);
    put(stream, 2, BOF);
    put(stream + 2, 2, 16);
    put(stream + 20, 2, FILEPASS);
    put(stream + 22, 2, body);
}

/* Nanoseconds a call of Same lock, which must say what is expected. */
static double same(size_t a, size_t b, int expected)
{
    double t = now();
    for (int i = 0; i < CALLS; i++)
        if (sheet_same_lock(first, FRONT + a, second, FRONT + b) != expected) {
            printf("sheet_same_lock did not answer %d\n", expected);
            exit(1);
        }
    return (now() - t) * 1e9 / CALLS;
}

/* Nanoseconds for a look at each. */
static double looks(size_t body)
{
    uint64_t facts[8];
    double t = now();
    for (int i = 0; i < CALLS; i++)
        if (sheet_look(first, FRONT + body, facts) != 2 || sheet_look(second, FRONT + body, facts) != 2) {
            printf("sheet_look did not answer yes\n");
            exit(1);
        }
    return (now() - t) * 1e9 / CALLS;
}

static void beside(size_t body)
{
    double best[4] = {1e18, 1e18, 1e18, 1e18};
    for (int round = 0; round < ROUNDS; round++) {
        double took[4];
        make(first, body);
        make(second, body);
        took[0] = same(body, body, 1);
        took[1] = same(body, body - 1, 0);
        second[FRONT] ^= 1;
        took[2] = same(body, body, 0);
        took[3] = looks(body);
        for (int i = 0; i < 4; i++)
            best[i] = took[i] < best[i] ? took[i] : best[i];
    }
    printf("same lock, bodies of %zu: equal %.1f ns, one byte less %.1f ns, the first differs %.1f ns, two looks %.1f ns\n", body, best[0], best[1], best[2], best[3]);
}

int main(void)
{
    static const size_t bodies[] = {6, 54, 106, 1098, 8192, 16384, 32768, MOST};
    for (size_t i = 0; i < sizeof bodies / sizeof *bodies; i++)
        beside(bodies[i]);
    return 0;
}
