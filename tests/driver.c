/* Calls the C interface with the cases on standard input and prints one line for each call.

   A case is one line; FILL is a byte in base sixteen, HEX bytes in base sixteen or - for none, all else base ten.
     rate       FILL HEX
     read       FILL HEX
     search     FILL ALLOWANCE AMOUNTS
     split      FILL COUNT AMOUNTS RECORDS
     search-moles FILL ALLOWANCE AMOUNTS                 (AMOUNTS are moles in these three)
     split-moles  FILL COUNT AMOUNTS RECORDS
     convert    FILL AMOUNTS
     write      FILL COUNT AMOUNTS RECORDS LOW HIGH     (a line for each room from LOW to HIGH)
     partial    FILL SYSTEM N1 N2 N3
     controller RATING SPREAD
     whole      RATING
     code-range CODE
     total-range
     version                                             (the header's, then the library's)
     touch      LENGTH AT                                (calls nothing: reads byte AT of LENGTH bytes that are lent)
   AMOUNTS is 16 times four bytes, high byte first; RECORDS up to 21 times system, code and four bytes, and the places
   left over hold FILL.

   An answer is number, place, then every buffer of the call in base sixteen, in the header's order: first filled
   with FILL, GUARD bytes before and after it included. Numbers in buffers stand high byte first. With --flush each
   line is printed at once, so that the last one shows where a call did not return. With --exact every buffer that is
   lent, to read or to write, is a block of just its size, so that a memory checker sees a step beyond it; the guards
   are then printed as FILL. */
#include <stddef.h>
#include <stdio.h>
#include <stdlib.h>
#include <string.h>

#include "saugrinte.h"

enum { CODES = SAUGRINTE_CODES, RECORDS = SAUGRINTE_RECORDS };
enum { GUARD = 8, ROOM = 4096, LINE = 1 << 16 };

/* The sizes and the layouts that compiled callers count on. */
_Static_assert(CODES == 16 && RECORDS == 21 && SAUGRINTE_SHEET == 188, "sizes of the arrays");
_Static_assert(sizeof(saugrinte_figures) == 3 * sizeof(int64_t), "figures are three numbers");
_Static_assert(offsetof(saugrinte_figures, rating) == 0, "the rating first");
_Static_assert(offsetof(saugrinte_figures, spread) == sizeof(int64_t), "then the spread");
_Static_assert(offsetof(saugrinte_figures, rounds) == 2 * sizeof(int64_t), "then the rounds");
_Static_assert(sizeof(saugrinte_answer) == 8 && offsetof(saugrinte_answer, place) == 4, "number and place");
_Static_assert(sizeof(saugrinte_record) == 16 && offsetof(saugrinte_record, spread) == 8, "two doubles");
_Static_assert(sizeof(saugrinte_range) == 8 && offsetof(saugrinte_range, greatest) == 4, "least and greatest");

static size_t guard = GUARD;            /* 0 with --exact */

/* A buffer with its guards. */
typedef struct {
    size_t size;
    int fill;
    uint8_t *all;
} region;

static void fail(const char *why, const char *line)
{
    fprintf(stderr, "driver: %s: %.200s\n", why, line);
    exit(2);
}

/* A block of just this size; also of none, where malloc gives a pointer that may not be read. */
static void *reserve(size_t size)
{
    void *got = malloc(size);
    if (!got)
        fail("no memory", "");
    return got;
}

static region filled(size_t size, int fill)
{
    region r = { size, fill, reserve(size + 2 * guard) };
    memset(r.all, fill, size + 2 * guard);
    return r;
}

static void *at(region r)
{
    return r.all + guard;
}

static void put_byte(uint8_t byte)
{
    static const char digits[] = "0123456789abcdef";
    putchar(digits[byte >> 4]);
    putchar(digits[byte & 15]);
}

/* Prints a region whose numbers are `width` bytes each, high byte first, and gives it back. */
static void put(region r, size_t width)
{
    putchar(' ');
    for (size_t i = 0; i < GUARD; i++)
        put_byte(guard ? r.all[i] : r.fill);
    for (size_t i = 0; i < r.size; i += width)
        for (size_t j = width; j > 0; j--)
            put_byte(r.all[guard + i + j - 1]);
    for (size_t i = 0; i < GUARD; i++)
        put_byte(guard ? r.all[guard + r.size + i] : r.fill);
    free(r.all);
}

/* Lends a call what it only reads: a copy in a block of just its size. */
static void *lend(const void *from, size_t size)
{
    return memcpy(reserve(size), from, size);
}

/* What was lent must stand as it was. */
static void give_back(void *lent, const void *from, size_t size)
{
    if (memcmp(lent, from, size))
        printf(" INPUT CHANGED");
    free(lent);
}

static void put_answer(saugrinte_answer answer)
{
    printf("%lu %lu", (unsigned long)answer.number, (unsigned long)answer.place);
}

/* ---- words of a line ---- */

static char line[LINE], *rest;

static char *word(void)
{
    char *start = rest + strspn(rest, " \n");
    char *end = start + strcspn(start, " \n");
    if (start == end)
        fail("a word is missing", line);
    rest = *end ? end + 1 : end;
    *end = 0;
    return start;
}

static uint64_t number(void)
{
    return strtoull(word(), NULL, 10);
}

static int fill_byte(void)
{
    return (int)strtoul(word(), NULL, 16);
}

static int digit(char c)
{
    if (c >= '0' && c <= '9')
        return c - '0';
    if (c >= 'a' && c <= 'f')
        return c - 'a' + 10;
    fail("not a digit of base sixteen", line);
    return 0;
}

static uint8_t *bytes(size_t *length)
{
    char *w = word();
    *length = strcmp(w, "-") ? strlen(w) / 2 : 0;
    uint8_t *out = reserve(*length);
    for (size_t i = 0; i < *length; i++)
        out[i] = (uint8_t)(digit(w[2 * i]) << 4 | digit(w[2 * i + 1]));
    return out;
}

static uint32_t four(const uint8_t *b)
{
    return (uint32_t)b[0] << 24 | (uint32_t)b[1] << 16 | (uint32_t)b[2] << 8 | b[3];
}

static void amounts_word(uint32_t amounts[CODES])
{
    size_t length;
    uint8_t *b = bytes(&length);
    if (length != 4 * CODES)
        fail("amounts are 64 bytes", line);
    for (int i = 0; i < CODES; i++)
        amounts[i] = four(b + 4 * i);
    free(b);
}

typedef struct {
    uint8_t systems[RECORDS], codes[RECORDS];
    uint32_t parts[RECORDS];
} records;

static records records_word(int fill)
{
    records r;
    size_t length;
    memset(&r, fill, sizeof r);
    uint8_t *b = bytes(&length);
    if (length % 6 || length > 6 * RECORDS)
        fail("records are six bytes each, 21 at most", line);
    for (size_t i = 0; i < length / 6; i++) {
        r.systems[i] = b[6 * i];
        r.codes[i] = b[6 * i + 1];
        r.parts[i] = four(b + 6 * i + 2);
    }
    free(b);
    return r;
}

/* COUNT, AMOUNTS and RECORDS. */
typedef struct {
    size_t count;
    uint32_t amounts[CODES];
    records split;
} gas;

static void gas_words(gas *g, int fill)
{
    memset(g, 0, sizeof *g);
    g->count = (size_t)number();
    amounts_word(g->amounts);
    g->split = records_word(fill);
}

/* The arrays of a gas as they are lent. */
typedef struct {
    uint32_t *amounts;
    uint8_t *systems, *codes;
    uint32_t *parts;
} lent_gas;

static lent_gas lend_gas(const gas *g)
{
    lent_gas l = { lend(g->amounts, sizeof g->amounts), lend(g->split.systems, sizeof g->split.systems),
                   lend(g->split.codes, sizeof g->split.codes), lend(g->split.parts, sizeof g->split.parts) };
    return l;
}

static void give_back_gas(lent_gas l, const gas *g)
{
    give_back(l.amounts, g->amounts, sizeof g->amounts);
    give_back(l.systems, g->split.systems, sizeof g->split.systems);
    give_back(l.codes, g->split.codes, sizeof g->split.codes);
    give_back(l.parts, g->split.parts, sizeof g->split.parts);
}

/* The buffers of a split, and their printing. */
typedef struct {
    region count, systems, codes, parts;
} columns;

static columns filled_columns(int fill)
{
    columns c = { filled(sizeof(size_t), fill), filled(RECORDS, fill), filled(RECORDS, fill),
                  filled(4 * RECORDS, fill) };
    return c;
}

static void put_columns(columns c)
{
    put(c.count, sizeof(size_t));
    put(c.systems, 1);
    put(c.codes, 1);
    put(c.parts, 4);
}

/* ---- the calls ---- */

static void rate(void)
{
    int fill = fill_byte();
    size_t length;
    uint8_t *sheet = bytes(&length), *lent = lend(sheet, length);
    region figures = filled(sizeof(saugrinte_figures), fill);
    columns c = filled_columns(fill);
    put_answer(saugrinte_rate(lent, length, at(figures), at(c.count), at(c.systems), at(c.codes), at(c.parts)));
    put(figures, 8);
    put_columns(c);
    give_back(lent, sheet, length);
    free(sheet);
}

static void read_sheet(void)
{
    int fill = fill_byte();
    size_t length;
    uint8_t *sheet = bytes(&length), *lent = lend(sheet, length);
    region amounts = filled(4 * CODES, fill);
    columns c = filled_columns(fill);
    put_answer(saugrinte_read(lent, length, at(amounts), at(c.count), at(c.systems), at(c.codes), at(c.parts)));
    put(amounts, 4);
    put_columns(c);
    give_back(lent, sheet, length);
    free(sheet);
}

typedef saugrinte_answer search_call(const uint32_t *, uint32_t, saugrinte_figures *, size_t *, uint8_t *, uint8_t *,
                                     uint32_t *);

static void search_by(search_call *call)
{
    int fill = fill_byte();
    uint32_t allowance = (uint32_t)number(), amounts[CODES];
    amounts_word(amounts);
    uint32_t *lent = lend(amounts, sizeof amounts);
    region figures = filled(sizeof(saugrinte_figures), fill);
    columns c = filled_columns(fill);
    put_answer(call(lent, allowance, at(figures), at(c.count), at(c.systems), at(c.codes), at(c.parts)));
    put(figures, 8);
    put_columns(c);
    give_back(lent, amounts, sizeof amounts);
}

static void search(void)
{
    search_by(saugrinte_search);
}

static void search_moles(void)
{
    search_by(saugrinte_search_moles);
}

typedef saugrinte_answer split_call(const uint32_t *, size_t, const uint8_t *, const uint8_t *, const uint32_t *,
                                    saugrinte_figures *);

static void split_by(split_call *call)
{
    int fill = fill_byte();
    gas g;
    gas_words(&g, fill);
    lent_gas l = lend_gas(&g);
    region figures = filled(sizeof(saugrinte_figures), fill);
    put_answer(call(l.amounts, g.count, l.systems, l.codes, l.parts, at(figures)));
    put(figures, 8);
    give_back_gas(l, &g);
}

static void split(void)
{
    split_by(saugrinte_rate_split);
}

static void split_moles(void)
{
    split_by(saugrinte_rate_split_moles);
}

static void convert(void)
{
    int fill = fill_byte();
    uint32_t moles[CODES];
    amounts_word(moles);
    uint32_t *lent = lend(moles, sizeof moles);
    region amounts = filled(4 * CODES, fill);
    put_answer(saugrinte_convert(lent, at(amounts)));
    put(amounts, 4);
    give_back(lent, moles, sizeof moles);
}

static void write_sheet(void)
{
    int fill = fill_byte();
    gas g;
    gas_words(&g, fill);
    size_t low = (size_t)number(), high = (size_t)number();
    if (high > ROOM)
        fail("too large a room", line);
    for (size_t room = low; room <= high; room++) {
        lent_gas l = lend_gas(&g);
        region buffer = filled(room, fill), length = filled(sizeof(size_t), fill);
        put_answer(saugrinte_write(l.amounts, g.count, l.systems, l.codes, l.parts, at(buffer), room, at(length)));
        put(buffer, 1);
        put(length, sizeof(size_t));
        give_back_gas(l, &g);
        if (room < high)
            putchar('\n');
    }
}

static void partial(void)
{
    int fill = fill_byte();
    uint32_t system = (uint32_t)number(), n1 = (uint32_t)number(), n2 = (uint32_t)number(), n3 = (uint32_t)number();
    region result = filled(8, fill);
    put_answer(saugrinte_partial_number(system, n1, n2, n3, at(result)));
    put(result, 8);
}

static void controller(void)
{
    int64_t rating = strtoll(word(), NULL, 10);
    uint64_t spread = number();
    saugrinte_record record = saugrinte_controller(rating, spread);
    region both = filled(sizeof record, 0);
    memcpy(at(both), &record, sizeof record);
    putchar('0');
    put(both, sizeof(double));
}

static void whole(void)
{
    printf("0 %lld", (long long)saugrinte_whole_number(strtoll(word(), NULL, 10)));
}

static void put_range(saugrinte_range range)
{
    printf("0 %lu %lu", (unsigned long)range.least, (unsigned long)range.greatest);
}

static void code_range(void)
{
    put_range(saugrinte_code_range((uint32_t)number()));
}

static void total_range(void)
{
    put_range(saugrinte_total_range());
}

static void version(void)
{
    printf("%lu %lu", (unsigned long)SAUGRINTE_VERSION, (unsigned long)saugrinte_version());
}

/* Whether a memory checker sees a step beyond what is lent can be tried with this. */
static void touch(void)
{
    size_t length = (size_t)number(), step = (size_t)number();
    volatile uint8_t *lent = memset(reserve(length), 0, length);
    (void)lent[step];
    free((void *)lent);
    putchar('0');
}

int main(int count, char **words)
{
    static const struct { const char *name; void (*call)(void); } calls[] = {
        { "rate", rate }, { "read", read_sheet }, { "search", search }, { "split", split },
        { "search-moles", search_moles }, { "split-moles", split_moles }, { "convert", convert },
        { "write", write_sheet }, { "partial", partial }, { "controller", controller }, { "whole", whole },
        { "code-range", code_range }, { "total-range", total_range }, { "version", version }, { "touch", touch },
    };
    for (int i = 1; i < count; i++)
        if (!strcmp(words[i], "--flush"))
            setvbuf(stdout, NULL, _IOLBF, 0);
        else if (!strcmp(words[i], "--exact"))
            guard = 0;
        else
            fail("no such option", words[i]);
    while (fgets(line, sizeof line, stdin)) {
        if (!strchr(line, '\n'))
            fail("a line is too long", line);
        rest = line;
        char *name = word();
        size_t i = 0;
        while (i < sizeof calls / sizeof *calls && strcmp(name, calls[i].name))
            i++;
        if (i == sizeof calls / sizeof *calls)
            fail("no such call", name);
        calls[i].call();
        putchar('\n');
    }
    return 0;
}
