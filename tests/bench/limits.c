/* How much stack a call of the C interface takes, and how long the longest takes.

     gcc -O2 -Iinclude tests/bench/limits.c target/staticlib/libsaugrinte.a -o target/limits
     target/limits tests/data/search-limit.txt tests/data/spread-limit.txt

   Each line of a file that does not begin with # has a sheet in base sixteen as one of its words. Every call is made
   with every sheet, or with what is read from it. A line is printed for each call:
     name, bytes of stack, nanoseconds of the longest call
   The stack is painted, the call is made on it, and its deepest changed byte is compared with that of an empty call:
   the return address and the arguments that stand on the stack are counted too. The functions of the C library that a
   call uses are resolved before. A call's time is processor time, the least of PASSES passes of REPEATS calls; the
   figure is that of the sheet with the most. */
#define _XOPEN_SOURCE 600
#include <inttypes.h>
#include <stdio.h>
#include <stdlib.h>
#include <string.h>
#include <time.h>
#include <ucontext.h>

#include "saugrinte.h"

enum { STACK = 1 << 18, PAINT = 0xA5, LINE = 4096, PASSES = 9, REPEATS = 4 };

/* What the calls are given and what they write. */
static uint8_t sheet[SAUGRINTE_SHEET], buffer[SAUGRINTE_SHEET];
static size_t length, count, proposed, written;
static uint32_t amounts[SAUGRINTE_CODES], volumes[SAUGRINTE_CODES];
static uint32_t parts[SAUGRINTE_RECORDS], read_parts[SAUGRINTE_RECORDS];
static uint8_t systems[SAUGRINTE_RECORDS], codes[SAUGRINTE_RECORDS];
static uint8_t read_systems[SAUGRINTE_RECORDS], read_codes[SAUGRINTE_RECORDS];
static saugrinte_figures figures;
static int64_t number, whole;
static saugrinte_record record;
static saugrinte_range range;
static uint32_t version;

static void call_nothing(void) { __asm__ volatile(""); }
static void call_version(void) { version = saugrinte_version(); }
static void call_rate(void) { saugrinte_rate(sheet, length, &figures, &count, systems, codes, parts); }
static void call_search(void)
{
    saugrinte_search(amounts, SAUGRINTE_ROUNDS, &figures, &count, systems, codes, parts);
}
static void call_rate_split(void)
{
    saugrinte_rate_split(amounts, proposed, read_systems, read_codes, read_parts, &figures);
}
/* The amounts as moles, where they have no hydrogen; the split proposed is the one found last. */
static void call_search_moles(void)
{
    saugrinte_search_moles(amounts, SAUGRINTE_ROUNDS, &figures, &count, systems, codes, parts);
}
static void call_rate_split_moles(void)
{
    saugrinte_rate_split_moles(amounts, count, systems, codes, parts, &figures);
}
static void call_convert(void) { saugrinte_convert(amounts, volumes); }
static void call_partial_number(void) { saugrinte_partial_number(20, amounts[1], amounts[11], amounts[12], &number); }
static void call_read(void)
{
    saugrinte_read(sheet, length, amounts, &proposed, read_systems, read_codes, read_parts);
}
static void call_write(void)
{
    saugrinte_write(amounts, proposed, read_systems, read_codes, read_parts, buffer, sizeof buffer, &written);
}
static void call_controller(void) { record = saugrinte_controller(figures.rating, (uint64_t)figures.spread); }
static void call_whole_number(void) { whole = saugrinte_whole_number(figures.rating); }
static void call_code_range(void) { range = saugrinte_code_range(SAUGRINTE_HYDROGEN); }
static void call_total_range(void) { range = saugrinte_total_range(); }

static struct {
    const char *name;
    void (*call)(void);
    size_t deepest;
    int64_t longest;
} calls[] = {
    { "(nothing)", call_nothing, 0, 0 },
    { "saugrinte_version", call_version, 0, 0 },
    { "saugrinte_rate", call_rate, 0, 0 },
    { "saugrinte_search", call_search, 0, 0 },
    { "saugrinte_rate_split", call_rate_split, 0, 0 },
    { "saugrinte_search_moles", call_search_moles, 0, 0 },
    { "saugrinte_rate_split_moles", call_rate_split_moles, 0, 0 },
    { "saugrinte_convert", call_convert, 0, 0 },
    { "saugrinte_partial_number", call_partial_number, 0, 0 },
    { "saugrinte_read", call_read, 0, 0 },
    { "saugrinte_write", call_write, 0, 0 },
    { "saugrinte_controller", call_controller, 0, 0 },
    { "saugrinte_whole_number", call_whole_number, 0, 0 },
    { "saugrinte_code_range", call_code_range, 0, 0 },
    { "saugrinte_total_range", call_total_range, 0, 0 },
};
enum { CALLS = sizeof calls / sizeof *calls };

static void fail(const char *why)
{
    fprintf(stderr, "limits: %s\n", why);
    exit(2);
}

/* Bytes of a painted stack that the call changes. */
static size_t depth(void (*call)(void))
{
    static uint8_t stack[STACK];
    static ucontext_t here, there;
    memset(stack, PAINT, STACK);
    if (getcontext(&there))
        fail("no context");
    there.uc_stack.ss_sp = stack;
    there.uc_stack.ss_size = STACK;
    there.uc_link = &here;
    makecontext(&there, call, 0);
    if (swapcontext(&here, &there))
        fail("no other context");
    size_t free_bytes = 0;
    while (free_bytes < STACK && stack[free_bytes] == PAINT)
        free_bytes++;
    return STACK - free_bytes;
}

static int64_t now(void)
{
    struct timespec t;
    clock_gettime(CLOCK_PROCESS_CPUTIME_ID, &t);
    return (int64_t)t.tv_sec * 1000000000 + t.tv_nsec;
}

static int64_t least_time(void (*call)(void))
{
    int64_t least = INT64_MAX;
    for (int pass = 0; pass < PASSES; pass++) {
        int64_t begin = now();
        for (int i = 0; i < REPEATS; i++)
            call();
        int64_t taken = (now() - begin) / REPEATS;
        if (taken < least)
            least = taken;
    }
    return least;
}

/* The sheet of a line: its first word of nothing but digits of base sixteen that is long enough to be one. */
static int take_sheet(char *line)
{
    for (char *word = strtok(line, " \n"); word; word = strtok(NULL, " \n")) {
        size_t digits = strlen(word);
        if (digits < 32 || digits % 2 || digits / 2 > sizeof sheet || strspn(word, "0123456789ABCDEFabcdef") != digits)
            continue;
        for (length = 0; length < digits / 2; length++) {
            char byte[3] = { word[2 * length], word[2 * length + 1], 0 };
            sheet[length] = (uint8_t)strtoul(byte, NULL, 16);
        }
        return 1;
    }
    return 0;
}

static void all_calls(int measured)
{
    call_read();
    call_rate();
    for (int i = 0; i < CALLS; i++) {
        calls[i].call();
        if (!measured)
            continue;
        size_t deep = depth(calls[i].call);
        int64_t time = least_time(calls[i].call);
        if (deep > calls[i].deepest)
            calls[i].deepest = deep;
        if (time > calls[i].longest)
            calls[i].longest = time;
    }
}

int main(int words, char **word)
{
    static char line[LINE];
    size_t sheets = 0;
    for (int i = 1; i < words; i++) {
        FILE *f = fopen(word[i], "r");
        if (!f)
            fail("a file is not there");
        while (fgets(line, sizeof line, f))
            if (line[0] != '#' && take_sheet(line)) {
                all_calls(sheets++ > 0);
                if (sheets == 1)
                    all_calls(1);
            }
        fclose(f);
    }
    if (!sheets)
        fail("usage: limits FILE.., files with sheets");
    printf("%zu sheets\n", sheets);
    for (int i = 1; i < CALLS; i++)
        printf("%-27s %6zu bytes of stack  %10" PRId64 " ns\n", calls[i].name,
               calls[i].deepest > calls[0].deepest ? calls[i].deepest - calls[0].deepest : 0, calls[i].longest);
    return 0;
}
