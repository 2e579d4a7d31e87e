/* Times the match table and score through libcapi.a: a line 'RECORD BOUNDS MEMO ..' on standard input, a line 'matches_ns score_ns repeats
 * index matches states k t0 t1 ..' on standard output. A time is the least of at least 3 calls, of the whole call, clearing included; repeats
 * is how often score was called for it. The tables are as large as the call needs: they are doubled while it is turned back by row 9, 10
 * or 12. The budget is the largest there is. */
#define _POSIX_C_SOURCE 200809L
#include <stdint.h>
#include <stdio.h>
#include <stdlib.h>
#include <string.h>
#include <time.h>

#include "../host/pazgelk.h"

enum { LINE = 65536, RECORD = 4096, ARRAY = 32, TRAIL = 2 * ARRAY, DESK = 4096 };

struct table {
    uint64_t *words;
    size_t length;
};

static uint8_t record[RECORD];
static size_t length;
static uint32_t bounds, memo_on, trail[TRAIL];
static uint64_t desk[DESK];
static struct table parts, pairs, memo;

static void *checked(void *got)
{
    if (got == NULL) {
        perror("bench");
        exit(1);
    }
    return got;
}

static void grow(struct table *t, size_t words)
{
    t->length = words;
    t->words = checked(realloc(t->words, words * sizeof *t->words));
    memset(t->words, 0, words * sizeof *t->words);
}

static uint64_t now(void)
{
    struct timespec t;
    clock_gettime(CLOCK_MONOTONIC, &t);
    return (uint64_t)t.tv_sec * 1000000000u + (uint64_t)t.tv_nsec;
}

static size_t bytes_of(const char *hex, uint8_t *out)
{
    size_t n = 0;
    unsigned byte;
    while (n < RECORD && sscanf(hex + 2 * n, "%2x", &byte) == 1)
        out[n++] = (uint8_t)byte;
    return n;
}

static struct pazgelk_reply count(void)
{
    return assembly_matches(record, length, parts.words, parts.length, pairs.words, pairs.length);
}

static struct pazgelk_score score(void)
{
    return assembly_score(record, length, bounds, memo_on, UINT32_MAX, trail, TRAIL, parts.words, parts.length, pairs.words, pairs.length,
                          memo.words, memo.length, desk, DESK);
}

/* Makes the tables as large as score needs; its answer. */
static struct pazgelk_score fitted(void)
{
    for (;;) {
        struct pazgelk_score reply = score();
        if (reply.number == 9)
            grow(&parts, 2 * parts.length);
        else if (reply.number == 10)
            grow(&pairs, 2 * pairs.length);
        else if (reply.number == 12)
            grow(&memo, 2 * memo.length);
        else if (reply.number == 0)
            return reply;
        else {
            fprintf(stderr, "bench: refused %u %llu\n", reply.number, (unsigned long long)reply.place);
            exit(1);
        }
    }
}

/* The least time of at least 3 calls, in some 200 ms. */
static uint64_t timed(int scores, unsigned *repeats)
{
    uint64_t least = UINT64_MAX, begin = now();
    for (*repeats = 0; *repeats < 3 || now() - begin < 200000000u; ++*repeats) {
        uint64_t start = now();
        if (scores)
            score();
        else
            count();
        uint64_t taken = now() - start;
        if (taken < least)
            least = taken;
    }
    return least;
}

int main(void)
{
    static char line[LINE], hex[LINE];
    while (fgets(line, sizeof line, stdin)) {
        if (sscanf(line, "%s %u %u", hex, &bounds, &memo_on) != 3) {
            fprintf(stderr, "bench: a line is RECORD BOUNDS MEMO\n");
            return 1;
        }
        length = bytes_of(hex, record);
        grow(&parts, 4096);
        grow(&pairs, 4096);
        grow(&memo, memo_on ? 4096 : 1);
        struct pazgelk_score reply = fitted();
        unsigned repeats;
        uint64_t matches_ns = timed(0, &repeats), score_ns = timed(1, &repeats);
        printf("%llu %llu %u %u %llu %u %u", (unsigned long long)matches_ns, (unsigned long long)score_ns, repeats, reply.index,
               (unsigned long long)reply.matches, reply.states, reply.length);
        for (size_t i = 0; i < reply.length; i++)
            printf(" %u", trail[i]);
        putchar('\n');
        fflush(stdout);
    }
    return 0;
}
