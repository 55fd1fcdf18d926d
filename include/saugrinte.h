/* Saugrinte: the methane number of a gas by the MWM method.

   A part is 0.0001 % by volume, in a mole analysis 0.0001 % of the moles. A unit is 0.0000001 of a methane number.

   Every function answers every input. An answer holds a number: 0 means done, anything else is a refusal, which changes
   no buffer. Its place tells more: for 2 to 4 the record's place from 0, for 5 the lowest code at fault, for all else
   0. At fault are the codes whose amounts are outside their ranges, methane where it is absent, and in a sheet every
   code that is listed at 0.

   amounts[k] is the amount in parts of code k, 0 where it is absent; only methane must be there. At 0, 9, 13 and 14
   no amount is legal: anything but 0 there is at fault, as code 0, 9, 13 or 14.

   moles[k] is likewise the amount of code k in an analysis by moles, which three calls take: the ranges are the same,
   their sum is tested by a refusal of its own, and hydrogen is turned away. Volume amounts are made from them and are
   not tested again: one that falls outside its range is rated all the same. No other call takes moles: a sheet has
   volume amounts.

   A split is a count of records and three arrays: record i gives amount parts[i] of component codes[i] to system
   systems[i]. Codes in a split are 1 methane, 2 ethane, 3 propane, 14 butanes, 15 hydrogen. A rated gas's split has
   three records for each system chosen: 6 where two of these five components are present, 9 where three or four are, 15
   at most where all five are. A system's records are those of all its components, in the order of their codes, with
   amount 0 where the gas has none. Places from the count on are not read, and a call that gives a split writes zeros
   there.

   A program that was compiled against this header outlives a release with the same first figure of SAUGRINTE_VERSION:
   no size, number or name here changes, new ones may come. A caller takes a split's records by its count and a sheet by
   its length: the arrays have room for the longest.

   Since version 1.2 codes 2 to 5 may be absent, which was refused 5 before, and a split may have 6 records. Since
   version 1.3 hydrogen has code 15, which was refused 2 in a sheet and 5 in an analysis; a sheet may list 12 components
   and have a split of 12, 15, 18 or 21 records, which was refused 1. Since version 1.4 the code with 5 is the lowest at
   fault; before, it was any one at fault. Since version 1.5 more than 6100 parts of hexanes+ are refused 5; before,
   more than 15000 were. Since version 1.6 there are the calls that take moles, with refusals 15 and 18, which no other
   call gives; since version 1.7 saugrinte_code_range and saugrinte_total_range tell the ranges; nothing else has
   changed. A gas that was rated before and is in range still has the rating, the split and the rounds that it had.

   The functions keep nothing between calls, so several threads may call them at once. They use no heap, no floating
   point but in saugrinte_controller, and of a C library memcpy alone. No pointer may be null, not even with a length,
   room or count of 0; an array is given whole, whatever the count says; and no buffer that a call writes may overlap
   another argument.

   Platform: the archive is for x86-64 Linux with its usual calling convention, and for every such processor.
   Stack, measured: saugrinte_rate 3.8 KB, saugrinte_search and saugrinte_search_moles 3.9 KB, saugrinte_rate_split and
   saugrinte_rate_split_moles 1.8 KB, all others 1 KB at most.
   Longest call of the sheets in tests/data, measured on an AMD EPYC (family 25, model 17), of the library as an older kit
   built it: 0.8 ms for saugrinte_rate and the two searches, of a gas whose search uses all 4000 rounds; all others 1
   microsecond. tests/bench/limits.c measures both. */
#ifndef SAUGRINTE_H
#define SAUGRINTE_H

#include <stddef.h>
#include <stdint.h>

#ifdef __cplusplus
extern "C" {
#endif

#define SAUGRINTE_VERSION 10700     /* of this header, 1.7.0: 10000, 100 and 1 times its three figures */

#define SAUGRINTE_CODES 16          /* entries of an analysis, one for each code from 0 to 15 */
#define SAUGRINTE_RECORDS 21        /* room for a split's records */
#define SAUGRINTE_SHEET 188         /* the bytes of the longest sheet */
#define SAUGRINTE_ROUNDS 4000       /* the greatest allowance of rounds */

/* The number of an answer. */
enum {
    SAUGRINTE_DONE = 0,
    SAUGRINTE_TORN = 1,             /* torn: a sheet's count not allowed, too few bytes, bytes left over */
    SAUGRINTE_UNKNOWN = 2,          /* unknown: code 0, 14, 16 or above in components */
    SAUGRINTE_RETIRED = 3,          /* retired: code 9 or 13 in components */
    SAUGRINTE_OUT_OF_ORDER = 4,     /* out of order: a code not above the one before */
    SAUGRINTE_OUT_OF_RANGE = 5,     /* out of range: an amount outside its range, or methane absent */
    SAUGRINTE_TOTAL = 6,            /* total: the amounts' sum outside 999900..1000100 */
    SAUGRINTE_MISFIT = 7,           /* misfit: not three records for each system chosen, or other systems or codes */
    SAUGRINTE_UNSUMMED = 8,         /* unsummed: a component's amounts in the split don't add up */
    SAUGRINTE_EMPTY_SYSTEM = 9,     /* empty system: a chosen system has no parts */
    SAUGRINTE_WIDE = 10,            /* wide: the split's spread is above 500000 units */
    SAUGRINTE_UNBALANCED = 11,      /* unbalanced: no split within that spread was found */
    SAUGRINTE_NO_MIXTURE = 12,      /* no mixture: amounts whose sum is 0 or above 1000000 */
    SAUGRINTE_NO_SYSTEM = 13,       /* no system: not one of those below, at saugrinte_partial_number */
    SAUGRINTE_SHORT_BLANK = 14,     /* short blank: the writer's buffer is too short */
    SAUGRINTE_MOLE_TOTAL = 15,      /* mole total: the mole amounts' sum outside 999900..1000100 */
    SAUGRINTE_TOO_FEW = 16,         /* too few: fewer than two of the five components after simplification */
    SAUGRINTE_SHARE = 17,           /* share: a share outside the system's range of validity */
    SAUGRINTE_HYDROGEN_IN_MOLES = 18 /* hydrogen in moles: a mole analysis has hydrogen (code 15) */
};

/* Component codes, each with the range of its amount; 9 and 13 are retired and never given again. */
enum {
    SAUGRINTE_METHANE = 1,          /* 400000..999700 parts, and must be present */
    SAUGRINTE_ETHANE = 2,           /* 100..150000 parts */
    SAUGRINTE_PROPANE = 3,          /* 100..60000 parts */
    SAUGRINTE_I_BUTANE = 4,         /* 10..40000 parts */
    SAUGRINTE_N_BUTANE = 5,         /* 10..40000 parts */
    SAUGRINTE_NEO_PENTANE = 6,      /* 10..500 parts */
    SAUGRINTE_I_PENTANE = 7,        /* 10..20000 parts */
    SAUGRINTE_N_PENTANE = 8,        /* 10..20000 parts */
    SAUGRINTE_HEXANES = 10,         /* 10..6100 parts */
    SAUGRINTE_CARBON_DIOXIDE = 11,  /* 50..100000 parts */
    SAUGRINTE_NITROGEN = 12,        /* 50..150000 parts */
    SAUGRINTE_BUTANES = 14,         /* in splits only */
    SAUGRINTE_HYDROGEN = 15         /* 10..100000 parts */
};

/* 0 for done, or the refusal's number with its place. */
typedef struct {
    uint32_t number;
    uint32_t place;
} saugrinte_answer;

/* A rating: rating and spread in units, and the rounds of the search, 0 for a proposed split. */
typedef struct {
    int64_t rating;
    int64_t spread;
    int64_t rounds;
} saugrinte_figures;

/* Room for a split, for a caller that keeps count and arrays together; a call takes them one by one:
   &split.count, split.systems, split.codes, split.parts. */
typedef struct {
    size_t count;
    uint8_t systems[SAUGRINTE_RECORDS];
    uint8_t codes[SAUGRINTE_RECORDS];
    uint32_t parts[SAUGRINTE_RECORDS];
} saugrinte_split;

/* The controller's record: a rating and its spread as methane numbers. */
typedef struct {
    double rating;
    double spread;
} saugrinte_record;

/* A range of amounts in parts, both ends included. */
typedef struct {
    uint32_t least;
    uint32_t greatest;
} saugrinte_range;

/* The library's version. This header's sizes, numbers and names are its own where both have the same first figure:
   saugrinte_version() / 10000 == SAUGRINTE_VERSION / 10000. */
uint32_t saugrinte_version(void);

/* Rates a sheet: its own split where it has one, else the split that the search finds in 4000 rounds.
   Done: *figures holds rating, spread and rounds; *count and the three arrays the split found, or 0 and zeros for a
   sheet with its own split.
   Refused 1 to 6, then 16, then 7 to 11: no buffer is changed. */
saugrinte_answer saugrinte_rate(const uint8_t *sheet, size_t length, saugrinte_figures *figures, size_t *count,
                                uint8_t systems[SAUGRINTE_RECORDS], uint8_t codes[SAUGRINTE_RECORDS],
                                uint32_t parts[SAUGRINTE_RECORDS]);

/* Rates an analysis by the search, with at most `allowance` rounds; above 4000 counts as 4000.
   Done: *figures holds rating, spread and rounds; *count and the three arrays the split found.
   Refused 5, then 6, 16, 11: no buffer is changed. */
saugrinte_answer saugrinte_search(const uint32_t amounts[SAUGRINTE_CODES], uint32_t allowance,
                                  saugrinte_figures *figures, size_t *count, uint8_t systems[SAUGRINTE_RECORDS],
                                  uint8_t codes[SAUGRINTE_RECORDS], uint32_t parts[SAUGRINTE_RECORDS]);

/* Rates an analysis with a proposed split.
   Done: *figures holds rating, spread and 0.
   Refused 5, then 6, 16, 7 to 10, 7 also where count is not three times the systems chosen: *figures is unchanged. */
saugrinte_answer saugrinte_rate_split(const uint32_t amounts[SAUGRINTE_CODES], size_t count,
                                      const uint8_t systems[SAUGRINTE_RECORDS],
                                      const uint8_t codes[SAUGRINTE_RECORDS],
                                      const uint32_t parts[SAUGRINTE_RECORDS], saugrinte_figures *figures);

/* Rates a mole analysis by the search, with at most `allowance` rounds; above 4000 counts as 4000. What is rated are
   the volume amounts that saugrinte_convert makes, which are not range-tested again; given to saugrinte_search they
   would be.
   Done: *figures holds rating, spread and rounds; *count and the three arrays the split found, which
   saugrinte_rate_split_moles rates alike with the same moles.
   Refused 18, then 5, 15, 16, 11: no buffer is changed. */
saugrinte_answer saugrinte_search_moles(const uint32_t moles[SAUGRINTE_CODES], uint32_t allowance,
                                        saugrinte_figures *figures, size_t *count, uint8_t systems[SAUGRINTE_RECORDS],
                                        uint8_t codes[SAUGRINTE_RECORDS], uint32_t parts[SAUGRINTE_RECORDS]);

/* Rates a mole analysis with a proposed split, of the volume amounts that saugrinte_convert makes.
   Done: *figures holds rating, spread and 0.
   Refused 18, then 5, 15, 16, 7 to 10, 7 also where count is not three times the systems chosen: *figures is
   unchanged. */
saugrinte_answer saugrinte_rate_split_moles(const uint32_t moles[SAUGRINTE_CODES], size_t count,
                                            const uint8_t systems[SAUGRINTE_RECORDS],
                                            const uint8_t codes[SAUGRINTE_RECORDS],
                                            const uint32_t parts[SAUGRINTE_RECORDS], saugrinte_figures *figures);

/* The volume amounts made from a mole analysis: each is 1000000 times its amount times its factor over the sum of those
   products, halves up, with the factors of the GOST draft's Table 2. They add up to 999995 to 1000005, and none that
   is present becomes 0. One may lie outside its range, and saugrinte_search, saugrinte_rate_split and saugrinte_write
   would then refuse them 5: for a rating, give the moles.
   Done: amounts holds them, 0 where a code is absent.
   Refused 18, then 5, 15: amounts is unchanged. */
saugrinte_answer saugrinte_convert(const uint32_t moles[SAUGRINTE_CODES], uint32_t amounts[SAUGRINTE_CODES]);

/* The partial number, in units, of a system at amounts n1, n2, n3 of its components. These stand here in the order of
   the formula, each with its range of validity: the least and the greatest share, in percent, that its amount may have
   of n1 + n2 + n3. The systems are those of EN 16726 Table A.2; 9, 10 and 11 are left out, for the magnitudes of their
   coefficients a(k,l), each times 100^(k+l), add up to more than 200000 methane numbers:

     system  n1                      n2                    n3
          1  methane 0..100          hydrogen 0..100       ethane 0..100
          2  propane 0..100          ethane 0..100         butane 0..100
          3  hydrogen 0..100         propane 0..100        propylene 0..100
          4  methane 0..100          ethane 0..100         propane 0..100
          5  methane 0..100          hydrogen 0..100       propane 0..100
          6  methane 0..100          hydrogen 0..100       butane 0..100
          7  methane 0..100          propane 0..100        butane 0..100
          8  methane 0..100          ethane 0..100         butane 0..100
         12  methane 0..100          propylene 0..100      none 0..0
         13  ethane 0..100           propylene 0..100      none 0..0
         14  carbon monoxide 0..100  hydrogen 0..100       none 0..0
         15  ethane 0..100           ethylene 0..100       none 0..0
         16  propane 0..100          ethylene 0..100       none 0..0
         17  butadiene 100..100      none 0..0             none 0..0
         18  butylene 100..100       none 0..0             none 0..0
         20  methane 50..100         carbon dioxide 0..30  nitrogen 0..50

   Ratings do not test these ranges. Version 1.0 knew 2, 4, 7, 8 and 20 and tested no range.
   Done: *number holds it.
   Refused 13, then 12, then 17: *number is unchanged. */
saugrinte_answer saugrinte_partial_number(uint32_t system, uint32_t n1, uint32_t n2, uint32_t n3,
                                          int64_t *number);

/* Reads a sheet.
   Done: amounts holds the analysis, *count 0 or a multiple of three from 6 to 21, the three arrays the split's records
   as they stand in the sheet, and zeros after them.
   Refused 1 to 6: no buffer is changed. */
saugrinte_answer saugrinte_read(const uint8_t *sheet, size_t length, uint32_t amounts[SAUGRINTE_CODES],
                                size_t *count, uint8_t systems[SAUGRINTE_RECORDS],
                                uint8_t codes[SAUGRINTE_RECORDS], uint32_t parts[SAUGRINTE_RECORDS]);

/* Writes the sheet of an analysis and a split, or of none (count 0), into a buffer of `room` bytes. The split's
   records are written as given.
   Done: *length holds the sheet's length, the buffer's first *length bytes the sheet; the others are unchanged.
   Refused 1 (count neither 0 nor a multiple of three from 6 to 21), then 5, 6, 14: the buffer and *length are
   unchanged. */
saugrinte_answer saugrinte_write(const uint32_t amounts[SAUGRINTE_CODES], size_t count,
                                 const uint8_t systems[SAUGRINTE_RECORDS], const uint8_t codes[SAUGRINTE_RECORDS],
                                 const uint32_t parts[SAUGRINTE_RECORDS], uint8_t *buffer, size_t room,
                                 size_t *length);

/* The controller's record of a rating and a spread in units: each count is converted to a double, which is exact
   for every figure that a rating answers, then divided by 10000000 and rounded once. */
saugrinte_record saugrinte_controller(int64_t rating, uint64_t spread);

/* The whole methane number of a rating in units: (rating + 5000000) / 10000000 rounded down, also below zero. */
int64_t saugrinte_whole_number(int64_t rating);

/* The range of a code's amount where it is present, by volume and by moles alike (but no mole analysis has hydrogen).
   1..0, between which no amount lies, for 0, 9, 13, 14 and every code above 15. */
saugrinte_range saugrinte_code_range(uint32_t code);

/* The range of the amounts' sum, by volume and by moles alike. */
saugrinte_range saugrinte_total_range(void);

#ifdef __cplusplus
}
#endif

#endif
