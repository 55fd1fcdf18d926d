/* Times the C interface. Linked once with the library and once with the plain C program; tests/bench/run asks both
   in turn for the same chunks of the same input.

     bench GASES MIXTURES
       GASES: a file with an amount for each code from 0 on a line, one gas each
       MIXTURES: a file with a system and its three amounts on a line

   Commands on standard input, one answer line each:
     rounds                        the rounds that each gas needs, -1 where it is refused
     search FIRST COUNT ALLOWANCE  rate so many gases by the search
     sheet FIRST COUNT             rate so many sheets, reading included
     split FIRST COUNT             rate the found splits of so many gases
     partial FIRST COUNT           so many mixtures' partial numbers
     refused FIRST COUNT           how many of these are refused
   The answer is the nanoseconds of processor time and a sum over all answers, which must not depend on who gives
   them. */
#define _POSIX_C_SOURCE 199309L
#include <inttypes.h>
#include <stdio.h>
#include <stdlib.h>
#include <string.h>
#include <time.h>

#include "saugrinte.h"

typedef struct {
    uint32_t amounts[SAUGRINTE_CODES];
    uint8_t sheet[SAUGRINTE_SHEET];
    size_t length, count;
    uint8_t systems[SAUGRINTE_RECORDS], codes[SAUGRINTE_RECORDS];
    uint32_t parts[SAUGRINTE_RECORDS];
    int64_t rounds;
} gas;

typedef struct {
    uint32_t system, n1, n2, n3;
} mixture;

static gas *gases;
static size_t count;
static mixture *mixtures;
static size_t mixture_count;

static void fail(const char *why)
{
    fprintf(stderr, "bench: %s\n", why);
    exit(2);
}

static int64_t now(void)
{
    struct timespec t;
    clock_gettime(CLOCK_PROCESS_CPUTIME_ID, &t);
    return (int64_t)t.tv_sec * 1000000000 + t.tv_nsec;
}

static uint64_t mixed(uint64_t sum, uint64_t value)
{
    return (sum ^ value) * 0x9E3779B97F4A7C15u + (sum >> 29);
}

static FILE *opened(const char *path)
{
    FILE *f = fopen(path, "r");
    if (!f)
        fail("a file is not there");
    return f;
}

/* Room for one more. */
static void *grown(void *all, size_t number, size_t *room, size_t size)
{
    if (number < *room)
        return all;
    *room = *room ? 2 * *room : 1024;
    all = realloc(all, *room * size);
    if (!all)
        fail("no memory");
    return all;
}

static void load_mixtures(const char *path)
{
    FILE *f = opened(path);
    size_t room = 0;
    mixture m;
    while (fscanf(f, "%" SCNu32 "%" SCNu32 "%" SCNu32 "%" SCNu32, &m.system, &m.n1, &m.n2, &m.n3) == 4) {
        mixtures = grown(mixtures, mixture_count, &room, sizeof m);
        mixtures[mixture_count++] = m;
    }
    fclose(f);
}

static void load(const char *path)
{
    FILE *f = opened(path);
    size_t room = 0;
    gas g;
    for (;;) {
        memset(&g, 0, sizeof g);
        for (int c = 0; c < SAUGRINTE_CODES; c++)
            if (fscanf(f, "%" SCNu32, &g.amounts[c]) != 1) {
                fclose(f);
                return;
            }
        if (saugrinte_write(g.amounts, 0, g.systems, g.codes, g.parts, g.sheet, sizeof g.sheet, &g.length).number)
            fail("a gas out of range");
        saugrinte_figures figures;
        saugrinte_answer answer = saugrinte_search(g.amounts, SAUGRINTE_ROUNDS, &figures, &g.count, g.systems, g.codes,
                                                   g.parts);
        g.rounds = answer.number ? -1 : figures.rounds;
        gases = grown(gases, count, &room, sizeof g);
        gases[count++] = g;
    }
}

static uint64_t search(size_t first, size_t last, uint32_t allowance)
{
    uint64_t sum = 0;
    for (size_t i = first; i < last; i++) {
        saugrinte_figures figures = { 0, 0, 0 };
        size_t records = 0;
        uint8_t systems[SAUGRINTE_RECORDS] = { 0 }, codes[SAUGRINTE_RECORDS] = { 0 };
        uint32_t parts[SAUGRINTE_RECORDS] = { 0 };
        saugrinte_answer answer = saugrinte_search(gases[i].amounts, allowance, &figures, &records, systems, codes, parts);
        sum = mixed(mixed(mixed(sum, answer.number), (uint64_t)figures.rating), (uint64_t)figures.rounds << 32 | parts[4]);
    }
    return sum;
}

static uint64_t sheet(size_t first, size_t last)
{
    uint64_t sum = 0;
    for (size_t i = first; i < last; i++) {
        saugrinte_figures figures = { 0, 0, 0 };
        size_t records = 0;
        uint8_t systems[SAUGRINTE_RECORDS] = { 0 }, codes[SAUGRINTE_RECORDS] = { 0 };
        uint32_t parts[SAUGRINTE_RECORDS] = { 0 };
        saugrinte_answer answer = saugrinte_rate(gases[i].sheet, gases[i].length, &figures, &records, systems, codes, parts);
        sum = mixed(mixed(sum, answer.number), (uint64_t)(figures.rating + figures.spread + figures.rounds));
    }
    return sum;
}

static uint64_t split(size_t first, size_t last)
{
    uint64_t sum = 0;
    for (size_t i = first; i < last; i++) {
        const gas *g = &gases[i];
        saugrinte_figures figures = { 0, 0, 0 };
        saugrinte_answer answer = saugrinte_rate_split(g->amounts, g->count, g->systems, g->codes, g->parts, &figures);
        sum = mixed(mixed(sum, answer.number), (uint64_t)(figures.rating + figures.spread));
    }
    return sum;
}

static uint64_t partial(size_t first, size_t last)
{
    uint64_t sum = 0;
    for (size_t i = first; i < last; i++) {
        const mixture *m = &mixtures[i];
        int64_t number = 0;
        saugrinte_answer answer = saugrinte_partial_number(m->system, m->n1, m->n2, m->n3, &number);
        sum = mixed(sum, (uint64_t)number + answer.number);
    }
    return sum;
}

static uint64_t refused(size_t first, size_t last)
{
    uint64_t sum = 0;
    for (size_t i = first; i < last; i++) {
        const mixture *m = &mixtures[i];
        int64_t number;
        sum += saugrinte_partial_number(m->system, m->n1, m->n2, m->n3, &number).number != 0;
    }
    return sum;
}

int main(int words, char **word)
{
    char name[16];
    unsigned long a, b, c = 0;
    if (words != 3)
        fail("usage: bench GASES MIXTURES");
    load(word[1]);
    load_mixtures(word[2]);
    while (scanf("%15s", name) == 1) {
        uint64_t sum = 0;
        int64_t begin = 0, end = 0;
        if (!strcmp(name, "rounds")) {
            for (size_t i = 0; i < count; i++)
                printf("%" PRId64 " ", gases[i].rounds);
            printf("\n");
            fflush(stdout);
            continue;
        }
        if (scanf("%lu %lu", &a, &b) != 2)
            fail("a number is missing");
        if (!strcmp(name, "search") && scanf("%lu", &c) != 1)
            fail("a number is missing");
        if (a + b > (!strcmp(name, "partial") || !strcmp(name, "refused") ? mixture_count : count))
            fail("no such gas or mixture");
        begin = now();
        if (!strcmp(name, "search"))
            sum = search(a, a + b, (uint32_t)c);
        else if (!strcmp(name, "sheet"))
            sum = sheet(a, a + b);
        else if (!strcmp(name, "split"))
            sum = split(a, a + b);
        else if (!strcmp(name, "partial"))
            sum = partial(a, a + b);
        else if (!strcmp(name, "refused"))
            sum = refused(a, a + b);
        else
            fail("no such command");
        end = now();
        printf("%" PRId64 " %" PRIu64 "\n", end - begin, sum);
        fflush(stdout);
    }
    return 0;
}
