/* Rates the gas of 001 Table A.1 as a plant controller would: writes its sheet, rates the sheet, and prints the
   display line and the controller's record.

     gcc -O2 -Iinclude examples/rate.c target/staticlib/libsaugrinte.a -o target/rate-example */
#include <inttypes.h>
#include <stdio.h>

#include "saugrinte.h"

static int refused(saugrinte_answer answer)
{
    if (answer.number != 0)
        printf("REFUSED %" PRIu32 " (place %" PRIu32 ")\n", answer.number, answer.place);
    return answer.number != 0;
}

int main(void)
{
    /* A library of another first figure has another interface. */
    if (saugrinte_version() / 10000 != SAUGRINTE_VERSION / 10000)
        return 1;

    /* Parts of 0.0001 % by volume, by code. */
    uint32_t amounts[SAUGRINTE_CODES] = {
        [SAUGRINTE_METHANE] = 970797, [SAUGRINTE_ETHANE] = 16658, [SAUGRINTE_PROPANE] = 2417,
        [SAUGRINTE_I_BUTANE] = 346, [SAUGRINTE_N_BUTANE] = 245, [SAUGRINTE_NEO_PENTANE] = 11,
        [SAUGRINTE_I_PENTANE] = 73, [SAUGRINTE_N_PENTANE] = 125, [SAUGRINTE_HEXANES] = 84,
        [SAUGRINTE_CARBON_DIOXIDE] = 528, [SAUGRINTE_NITROGEN] = 8715,
    };
    /* No split is proposed, so the rating searches for one and gives it here. */
    saugrinte_split split = { .count = 0 };

    uint8_t sheet[SAUGRINTE_SHEET];
    size_t length;
    if (refused(saugrinte_write(amounts, split.count, split.systems, split.codes, split.parts,
                                sheet, sizeof sheet, &length)))
        return 1;
    printf("sheet of %zu bytes\n", length);

    saugrinte_figures figures;
    if (refused(saugrinte_rate(sheet, length, &figures, &split.count, split.systems, split.codes, split.parts)))
        return 1;
    printf("RATED %" PRId64 " %" PRId64 " %" PRId64 " %" PRId64 "\n",
           figures.rating, saugrinte_whole_number(figures.rating), figures.spread, figures.rounds);

    saugrinte_record record = saugrinte_controller(figures.rating, (uint64_t)figures.spread);
    printf("methane number %.7f, spread %.7f\n", record.rating, record.spread);

    /* The split that was found, proposed for the same gas, gets the same rating with no round. */
    printf("split of %zu records\n", split.count);
    if (refused(saugrinte_rate_split(amounts, split.count, split.systems, split.codes, split.parts, &figures)))
        return 1;
    printf("put back %" PRId64 ", rounds %" PRId64 "\n", figures.rating, figures.rounds);

    /* A refusal: ethane is below its range, and the lowest code at fault comes with the number. */
    amounts[SAUGRINTE_ETHANE] = 99;
    refused(saugrinte_write(amounts, 0, split.systems, split.codes, split.parts, sheet, sizeof sheet, &length));
    return 0;
}
