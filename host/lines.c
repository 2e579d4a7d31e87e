/* The program `lines` again, as a C host has it: the same questions on standard input, answered through libcapi.a. */
#define _GNU_SOURCE
#include <stdint.h>
#include <stdio.h>
#include <stdlib.h>
#include <string.h>
#include <sys/types.h>

#include "pazgelk.h"

enum { LINE = 4096, BUFFER = 1024, TRAIL = 72, ARRAY = 32 };

/* A table that may be lent: how many words it has, how many are lent where a line does not say, and the words. */
struct table {
    const char *name;
    uint64_t room, usual, *words;
};

static struct table parts = {"parts", 65536, 65536, NULL}, pairs = {"pairs", 65536, 65536, NULL};
static struct table memo = {"memo", 163840, 163840, NULL}, desk = {"desk", 5000, 4096, NULL};
static struct table *const tables[] = {&parts, &pairs, &memo, &desk};

static int digit(int c)
{
    if (c >= '0' && c <= '9')
        return c - '0';
    if (c >= 'a' && c <= 'f')
        return c - 'a' + 10;
    if (c >= 'A' && c <= 'F')
        return c - 'A' + 10;
    return -1;
}

/* The bytes of a word of hexadecimal digits, '-' for none; how many, or -1 where it cannot be read. */
static ssize_t bytes_of(const char *word, uint8_t *out)
{
    size_t n = strlen(word);
    if (strcmp(word, "-") == 0)
        return 0;
    if (n == 0 || n % 2 != 0)
        return -1;
    for (size_t i = 0; i < n; i += 2) {
        int high = digit(word[i]), low = digit(word[i + 1]);
        if (high < 0 || low < 0)
            return -1;
        out[i / 2] = (uint8_t)(high * 16 + low);
    }
    return (ssize_t)(n / 2);
}

/* A number of 1 to most digits to the base; 0 where the word is none. */
static int number_of(const char *word, unsigned base, size_t most, uint64_t *value)
{
    size_t n = strlen(word);
    if (n == 0 || n > most)
        return 0;
    *value = 0;
    for (size_t i = 0; i < n; i++) {
        int d = digit(word[i]);
        if (d < 0 || (unsigned)d >= base)
            return 0;
        *value = *value * base + (unsigned)d;
    }
    return 1;
}

/* Takes the line apart at its spaces; the number of words, or -1 where there are more than most. */
static int words_of(char *line, char **words, int most)
{
    int n = 0;
    for (char *word; (word = strsep(&line, " ")) != NULL;) {
        if (n == most)
            return -1;
        words[n++] = word;
    }
    return n;
}

static void put_refused(uint32_t number, uint64_t place)
{
    printf("refused %u %llu\n", number, (unsigned long long)place);
}

/* check HEX */
static int answer_check(char **words)
{
    uint8_t record[LINE / 2];
    ssize_t length = bytes_of(words[1], record);
    if (length < 0)
        return 0;
    struct pazgelk_reply reply = assembly_check(record, (size_t)length);
    if (reply.number == 0)
        puts("accepted");
    else
        put_refused(reply.number, reply.place);
    return 1;
}

/* label HEX SETHEX BUFLEN: the buffer is filled with a pattern, and what should be untouched is looked at afterwards. */
static int answer_label(char **words)
{
    uint8_t record[LINE / 2], buffer[BUFFER];
    uint64_t set, room;
    ssize_t length = bytes_of(words[1], record);
    if (length < 0 || !number_of(words[2], 16, 16, &set) || !number_of(words[3], 10, 19, &room) || room > BUFFER)
        return 0;
    for (size_t i = 0; i < BUFFER; i++)
        buffer[i] = (uint8_t)(i * 37 + 11);
    struct pazgelk_reply reply = assembly_label(record, (size_t)length, set, buffer, (size_t)room);
    size_t n = reply.number == 0 ? (size_t)reply.place : 0;
    for (size_t i = n; i < BUFFER; i++)
        if (buffer[i] != (uint8_t)(i * 37 + 11)) {
            printf("touched byte %zu\n", i);
            return 1;
        }
    if (reply.number != 0) {
        put_refused(reply.number, reply.place);
        return 1;
    }
    fputs("label ", stdout);
    for (size_t i = 0; i < n; i++)
        printf("%02x", buffer[i]);
    putchar('\n');
    return 1;
}

/* What an element is filled with: never 0, in 32 bits too. */
static uint64_t noise(size_t i)
{
    return (uint64_t)i * 0x9e3779b97f4a7c15u | 1;
}

static void fill(struct table *table)
{
    for (size_t i = 0; i < table->room; i++)
        table->words[i] = noise(i);
}

/* Ends the program: an element is not as it must be. */
static void broken(const char *name, size_t i, const char *how)
{
    fflush(stdout);
    fprintf(stderr, "element %zu of %s is %s\n", i, name, how);
    exit(1);
}

/* Whether a call has turned back what it was asked, by a row up to last or by row 15, which comes directly after 3: then it has touched
 * nothing that it was lent. */
static int untouched(uint32_t number, uint32_t last)
{
    return (number != 0 && number <= last) || number == 15;
}

/* A table after a call: where it is cleared the words that were lent are 0; all others are as they were filled. */
static void hold(const struct table *table, int cleared, uint64_t lent)
{
    size_t zeros = cleared ? (size_t)lent : 0;
    for (size_t i = 0; i < table->room; i++)
        if (table->words[i] != (i < zeros ? 0 : noise(i)))
            broken(table->name, i, i < zeros ? "not cleared" : "touched");
}

/* The index of the root of an accepted record: its bonds less one for each tree that has any. A tree has one atom more than bonds, so there
 * are as many such trees as atoms with a bond less bonds. */
static uint32_t root_index(const uint8_t *record)
{
    uint32_t atoms = record[0], bonds = record[1], joined = 0;
    const uint8_t *ends = record + 2 + 2 * atoms;
    for (uint32_t v = 0; v < atoms; v++)
        joined += memchr(ends, (int)v, 2 * bonds) != NULL;
    return bonds - (joined - bonds);
}

/* The trail after a score with k removals: two arrays of 32, in each k numbers that the call has written and then zeros. Sizes are two at
 * least, and the root's index is index plus the sum of (size less one). Later numbers are as they were filled. */
static void hold_scored(const uint32_t *trail, struct pazgelk_score reply, uint32_t root)
{
    uint64_t sum = reply.index;
    if (reply.length > ARRAY)
        broken("trail", reply.length, "past the first 32");
    for (size_t i = 0; i < TRAIL; i++) {
        int written = i < 2 * ARRAY;
        if (written && i % ARRAY < reply.length)
            continue;
        if (trail[i] != (written ? 0 : (uint32_t)noise(i)))
            broken("trail", i, written ? "not 0" : "touched");
    }
    for (size_t i = ARRAY; i < ARRAY + reply.length; i++) {
        if (trail[i] < 2)
            broken("trail", i, "no size");
        sum += trail[i] - 1;
    }
    if (sum != root)
        broken("trail", ARRAY, "not a size that fits the index");
}

/* The trail after a row: as it was filled. */
static void hold_trail(const uint32_t *trail)
{
    for (size_t i = 0; i < TRAIL; i++)
        if (trail[i] != (uint32_t)noise(i))
            broken("trail", i, "touched");
}

/* A length in decimal that the table has. */
static int length_of(const char *word, uint64_t room, uint64_t *value)
{
    return number_of(word, 10, 19, value) && *value <= room;
}

/* matches HEX [PARTS PAIRS]: the tables are filled with a pattern, and looked at afterwards, also past the words that are lent. */
static int answer_matches(char **words, int n)
{
    uint8_t record[LINE / 2];
    uint64_t lent[2] = {parts.usual, pairs.usual};
    ssize_t length = bytes_of(words[1], record);
    if (length < 0)
        return 0;
    for (int i = 2; i < n; i++)
        if (!length_of(words[i], tables[i - 2]->room, &lent[i - 2]))
            return 0;
    fill(&parts);
    fill(&pairs);
    struct pazgelk_reply reply = assembly_matches(record, (size_t)length, parts.words, (size_t)lent[0], pairs.words, (size_t)lent[1]);
    int cleared = !untouched(reply.number, 6);
    hold(&parts, cleared, lent[0]);
    hold(&pairs, cleared, lent[1]);
    if (reply.number == 0)
        printf("matches %llu\n", (unsigned long long)reply.place);
    else
        put_refused(reply.number, reply.place);
    return 1;
}

/* score HEX BOUNDS MEMO BUDGET [TRAIL PARTS PAIRS MEMO DESK]: the same, with the trail. */
static int answer_score(char **words, int n)
{
    uint8_t record[LINE / 2];
    uint32_t trail[TRAIL];
    uint64_t setting[3], numbers = 2 * ARRAY, lent[4];
    ssize_t length = bytes_of(words[1], record);
    if (length < 0)
        return 0;
    for (int i = 0; i < 3; i++)
        if (!length_of(words[2 + i], UINT32_MAX, &setting[i]))
            return 0;
    if (n == 10 && !length_of(words[5], TRAIL, &numbers))
        return 0;
    for (int i = 0; i < 4; i++) {
        lent[i] = tables[i]->usual;
        if (n == 10 && !length_of(words[6 + i], tables[i]->room, &lent[i]))
            return 0;
    }
    for (size_t i = 0; i < TRAIL; i++)
        trail[i] = (uint32_t)noise(i);
    for (int i = 0; i < 4; i++)
        fill(tables[i]);
    struct pazgelk_score reply =
        assembly_score(record, (size_t)length, (uint32_t)setting[0], (uint32_t)setting[1], (uint32_t)setting[2], trail, (size_t)numbers,
                       parts.words, (size_t)lent[0], pairs.words, (size_t)lent[1], memo.words, (size_t)lent[2], desk.words, (size_t)lent[3]);
    if (reply.number == 0)
        hold_scored(trail, reply, root_index(record));
    else
        hold_trail(trail);
    for (int i = 0; i < 4; i++)
        hold(tables[i], !untouched(reply.number, 8), lent[i]);
    if (reply.number != 0) {
        put_refused(reply.number, reply.place);
        return 1;
    }
    printf("scored %u %llu %u %u", reply.index, (unsigned long long)reply.matches, reply.states, reply.length);
    for (size_t i = 0; i < reply.length; i++)
        printf(" %u", trail[i]);
    for (size_t i = 0; i < reply.length; i++)
        printf(" %u", trail[ARRAY + i]);
    putchar('\n');
    return 1;
}

/* Answers a line; 0 where it cannot be read. */
static int answer(char *line)
{
    char *words[10];
    int n = words_of(line, words, 10);
    if (n == 2 && strcmp(words[0], "check") == 0)
        return answer_check(words);
    if (n == 4 && strcmp(words[0], "label") == 0)
        return answer_label(words);
    if ((n == 2 || n == 4) && strcmp(words[0], "matches") == 0)
        return answer_matches(words, n);
    if ((n == 5 || n == 10) && strcmp(words[0], "score") == 0)
        return answer_score(words, n);
    return 0;
}

/* lines [PARTS PAIRS MEMO]: these tables have so many words, all of which are lent where a line does not say. */
int main(int count, char **arguments)
{
    int good = count == 1 || count == 4;
    for (int i = 1; i < count && good; i++) {
        good = number_of(arguments[i], 10, 9, &tables[i - 1]->room);
        tables[i - 1]->usual = tables[i - 1]->room;
    }
    if (!good) {
        fprintf(stderr, "usage: %s [PARTS PAIRS MEMO]\n", arguments[0]);
        return 2;
    }
    for (int i = 0; i < 4; i++)
        if ((tables[i]->words = malloc(tables[i]->room * sizeof(uint64_t) + 1)) == NULL)
            return 2;
    char *line = NULL;
    size_t room = 0;
    ssize_t length;
    for (unsigned long number = 1; (length = getline(&line, &room, stdin)) >= 0; number++) {
        if (length > 0 && line[length - 1] == '\n')
            line[--length] = '\0';
        if (length > LINE || strlen(line) != (size_t)length || !answer(line))
            printf("unreadable %lu\n", number);
    }
    free(line);
    for (int i = 0; i < 4; i++)
        free(tables[i]->words);
    return ferror(stdin) || fflush(stdout) != 0;
}
