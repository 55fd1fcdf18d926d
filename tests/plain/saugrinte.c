/* The same rules in plain C, written from the paper and not from the library, behind the same header. The benchmark
   compares the library's time with it, and the tests can be tried on it. Compiled with gcc -O3. */
#include <string.h>

#include "saugrinte.h"

enum { TORN = 1, UNKNOWN, RETIRED, OUT_OF_ORDER, OUT_OF_RANGE, TOTAL, MISFIT, UNSUMMED, EMPTY_SYSTEM, WIDE,
       UNBALANCED, NO_MIXTURE, NO_SYSTEM, SHORT_BLANK, MOLE_TOTAL, TOO_FEW, SHARE, HYDROGEN_IN_MOLES };

enum { CODES = SAUGRINTE_CODES, ROOM = SAUGRINTE_RECORDS, ROUNDS = SAUGRINTE_ROUNDS };

/* Components of the simplified mixture. */
enum { METHANE, ETHANE, PROPANE, BUTANE, HYDROGEN, COMPONENTS };

/* The systems to choose from, in the order of their numbers 1, 2, 4, 5, 6, 7, 8, those with hydrogen only where the gas
   has some; the inert system, 20; the others. */
enum { CANDIDATES = 7, INERT = 7, SYSTEMS = 16, CHOSEN = CANDIDATES, MEMBERS = 3 };

#define WHOLE 1000000
#define LEAST_TOTAL 999900
#define GREATEST_TOTAL 1000100
#define LIMIT 500000

static const saugrinte_answer done = { 0, 0 };

static saugrinte_answer refused(uint32_t number, uint32_t place)
{
    saugrinte_answer answer = { number, place };
    return answer;
}

/* ---- the register (001 Table 1) ---- */

static const struct { uint32_t least, greatest; int required; } ranges[CODES] = {
    { 0, 0, 0 },
    { 400000, 999700, 1 },
    { 100, 150000, 0 },
    { 100, 60000, 0 },
    { 10, 40000, 0 },
    { 10, 40000, 0 },
    { 10, 500, 0 },
    { 10, 20000, 0 },
    { 10, 20000, 0 },
    { 0, 0, 0 },
    { 10, 6100, 0 },
    { 50, 100000, 0 },
    { 50, 150000, 0 },
    { 0, 0, 0 },
    { 0, 0, 0 },
    { 10, 100000, 0 },
};

static int in_range(int code, uint32_t amount)
{
    return ranges[code].least <= amount && amount <= ranges[code].greatest;
}

/* Refusal 5 with the lowest code at fault, then the one for a total outside its range. An amount of 0 is at fault where
   the code is required, or is listed all the same: zeros has a bit for each code that a sheet lists at 0. */
static saugrinte_answer check_with(const uint32_t amounts[CODES], uint32_t zeros, uint32_t out_of_total)
{
    uint64_t total = 0;
    for (int code = 0; code < CODES; code++) {
        int listed_at_0 = zeros >> code & 1;
        if (amounts[code] == 0 ? ranges[code].required || listed_at_0 : !in_range(code, amounts[code]))
            return refused(OUT_OF_RANGE, code);
        total += amounts[code];
    }
    if (total < LEAST_TOTAL || total > GREATEST_TOTAL)
        return refused(out_of_total, 0);
    return done;
}

static saugrinte_answer check(const uint32_t amounts[CODES], uint32_t zeros)
{
    return check_with(amounts, zeros, TOTAL);
}

/* ---- moles (001 Table 2 and formula 1) ---- */

/* In ten-thousandths, by code. */
static const uint64_t factors[CODES] = {
    0, 9981, 9920, 9829, 9720, 9681, 9608, 9521, 9473, 0, 9155, 9947, 9998, 0, 0, 0,
};

static saugrinte_answer check_moles(const uint32_t moles[CODES])
{
    if (moles[SAUGRINTE_HYDROGEN] != 0)
        return refused(HYDROGEN_IN_MOLES, 0);
    return check_with(moles, 0, MOLE_TOTAL);
}

/* The volume amounts made, where 18, 5 and 15 don't turn the moles away; they are not tested again. */
static saugrinte_answer make_volumes(const uint32_t moles[CODES], uint32_t volumes[CODES])
{
    saugrinte_answer answer = check_moles(moles);
    if (answer.number)
        return answer;
    uint64_t sum = 0;
    for (int code = 0; code < CODES; code++)
        sum += moles[code] * factors[code];
    for (int code = 0; code < CODES; code++)
        volumes[code] = (2 * WHOLE * (moles[code] * factors[code]) + sum) / (2 * sum);
    return done;
}

/* ---- partial numbers (in units: 001 Table 5, a(2,2) of system 20 as in 000; the others 000 Table A.2) ---- */

static const int highest[8] = { 6, 3, 2, 1, 0, 0, 0, 0 };

/* Systems 9, 10 and 11 are left out: the magnitudes in each of them add up to more than 2000000000000. */
static const int64_t coefficients[SYSTEMS][8][7] = {
    { /* 1: methane, hydrogen, ethane */
        { 436281900, -10488580, -432027400, 685074200, -671380200, 0, 0 },
        { -92508870, -250077300, -535280100, 297065800 },
        { 1644927000, -604869600, 1210969000 },
        { -3119169000, 2199370000 },
        { 2122334000 },
        { 0 },
        { 0 },
        { 0 },
    },
    { /* 2: propane, ethane, butane */
        { 102451300, 149821300, 513697100, -568561500, 240394800, 0, 0 },
        { 85906610, 957050400, -458027700, -314015700 },
        { 738439600, -2020327000, 311470300 },
        { -1003662000, 1251138000 },
        { 412730500 },
        { 0 },
        { 0 },
        { 0 },
    },
    { /* 4: methane, ethane, propane */
        { 335390900, 206837500, -355368900, 500185600, -250425600, 0, 0 },
        { -102822400, 331613700, 394184000, -433387600 },
        { 2398141000, -2409604000, 803645400 },
        { -9584746000, 3458510000 },
        { 20052880000 },
        { -21154170000 },
        { 9054020000 },
        { 0 },
    },
    { /* 5: methane, hydrogen, propane */
        { 347580400, 54737050, -1056781000, 2289769000, -1634024000, 0, 0 },
        { -519490500, 2642531000, -3555327000, 748608500 },
        { 4405446000, -10846450000, 7987488000 },
        { -8743329000, 11309800000 },
        { 5476742000 },
        { 0 },
        { 0 },
        { 0 },
    },
    { /* 6: methane, hydrogen, butane */
        { 122990200, -451037000, 1786630000, -1427912000, 0, 0, 0 },
        { -751820700, 5126147000, -10022400000, 5249888000 },
        { 5143333000, -16406520000, 15763060000 },
        { -10241590000, 15661210000 },
        { 6699563000 },
        { 0 },
        { 0 },
        { 0 },
    },
    { /* 7: methane, propane, butane */
        { 101691400, 38170960, 1036501000, -1615215000, 774084000, 0, 0 },
        { 436661200, -794786400, 2371491000, -878229100 },
        { -8726454000, 3267886000, -4975863000 },
        { 59397950000, -330858600 },
        { -185412700000 },
        { 295659800000 },
        { -233707400000 },
        { 73223480000 },
    },
    { /* 8: methane, ethane, butane */
        { 107776100, -140500700, 1615437000, -1754670000, 607521300, 0, 0 },
        { 164749000, -704486900, 3384803000, -1971021000 },
        { -5198730000, 1479482000, -4041667000 },
        { 39913150000, 2756444000 },
        { -127748700000 },
        { 201570300000 },
        { -155801700000 },
        { 47976930000 },
    },
    { /* 20: methane, carbon dioxide, nitrogen */
        { 2991743000, -311563600, 1123041000, -21468550000, 66993640000, -83693870000, 39280730000 },
        { -15119580000, 4548069000, 6555709000, -7933902000 },
        { 76359480000, -7856294000, 1381699000 },
        { -237626300000, 3860668000 },
        { 435549400000 },
        { -460772600000 },
        { 261057000000 },
        { -61439140000 },
    },
    { /* 3: hydrogen, propane, propylene */
        { 186279400, 108710900, 179850000, -258366700, 119878900, 0, 0 },
        { -120358100, -130506300, 856137600, -626261300 },
        { 1929801000, 299044700, -685464600 },
        { -13018080000, 200112400 },
        { 41692950000 },
        { -69526380000 },
        { 57989840000 },
        { -19133740000 },
    },
    { /* 12: methane, propylene */
        { 590955150, -3406924000, 15370325000, -36748700000, 46273625000, -29054230000, 7163830000 },
        { 106027050, 0, 0, 0 },
        { -318848300, 0, 0 },
        { -1080121000, 0 },
        { 8459930000 },
        { -13928745000 },
        { 7163830000 },
        { 0 },
    },
    { /* 13: ethane, propylene */
        { 315507000, -177068750, 48659675, 0, 0, 0, 0 },
        { 79749400, 0, 0, 0 },
        { 48659675, 0, 0 },
        { 0, 0 },
        { 0 },
        { 0 },
        { 0 },
        { 0 },
    },
    { /* 14: carbon monoxide, hydrogen */
        { 0, 0, 0, 0, 0, 0, 0 },
        { 1500000000, -750000000, 0, 0 },
        { -750000000, 0, 0 },
        { 0, 0 },
        { 0 },
        { 0 },
        { 0 },
        { 0 },
    },
    { /* 15: ethane, ethylene */
        { 296555950, -123444050, -23601400, 0, 0, 0, 0 },
        { 170646850, 0, 0, 0 },
        { -23601400, 0, 0 },
        { 0, 0 },
        { 0 },
        { 0 },
        { 0 },
        { 0 },
    },
    { /* 16: propane, ethylene */
        { 244947550, -54597900, -41083915, 0, 0, 0, 0 },
        { 136765750, 0, 0, 0 },
        { -41083915, 0, 0 },
        { 0, 0 },
        { 0 },
        { 0 },
        { 0 },
        { 0 },
    },
    { /* 17: butadiene */
        { 120000000, 0, 0, 0, 0, 0, 0 },
        { 0, 0, 0, 0 },
        { 0, 0, 0 },
        { 0, 0 },
        { 0 },
        { 0 },
        { 0 },
        { 0 },
    },
    { /* 18: butylene */
        { 200000000, 0, 0, 0, 0, 0, 0 },
        { 0, 0, 0, 0 },
        { 0, 0, 0 },
        { 0, 0 },
        { 0 },
        { 0 },
        { 0 },
        { 0 },
    },
};

static int64_t partial_number(int system, int64_t n1, int64_t n2, int64_t n3)
{
    int64_t d = n1 + n2 + n3;
    int64_t number = 0;
    for (int k = 7; k >= 0; k--) {
        const int64_t *a = coefficients[system][k];
        int64_t inner = a[highest[k]];
        for (int l = highest[k] - 1; l >= 0; l--)
            inner = inner * n2 / d + a[l];
        number = k == 7 ? inner : number * n1 / d + inner;
    }
    return number;
}

/* ---- ranges of validity (000 Table A.2), which a single system's call tests ---- */

/* The place of a system's coefficients and shares, by its number. */
enum { NONE = 255 };
static const uint8_t places[21] = {
    NONE, 0, 1, 8, 2, 3, 4, 5, 6, NONE, NONE, NONE, 9, 10, 11, 12, 13, 14, 15, NONE, INERT,
};

/* Least and greatest share of a component, in percent. */
typedef struct {
    uint8_t least, greatest;
} range;

#define ANY { 0, 100 }
#define BLANK { 0, 0 }
#define ALL { 100, 100 }

static const range shares[SYSTEMS][MEMBERS] = {
    { ANY, ANY, ANY },                      /* 1 */
    { ANY, ANY, ANY },                      /* 2 */
    { ANY, ANY, ANY },                      /* 4 */
    { ANY, ANY, ANY },                      /* 5 */
    { ANY, ANY, ANY },                      /* 6 */
    { ANY, ANY, ANY },                      /* 7 */
    { ANY, ANY, ANY },                      /* 8 */
    { { 50, 100 }, { 0, 30 }, { 0, 50 } },  /* 20 */
    { ANY, ANY, ANY },                      /* 3 */
    { ANY, ANY, BLANK },                    /* 12 */
    { ANY, ANY, BLANK },                    /* 13 */
    { ANY, ANY, BLANK },                    /* 14 */
    { ANY, ANY, BLANK },                    /* 15 */
    { ANY, ANY, BLANK },                    /* 16 */
    { ALL, BLANK, BLANK },                  /* 17 */
    { ALL, BLANK, BLANK },                  /* 18 */
};

static int in_share(range r, uint64_t n, uint64_t d)
{
    return r.least * d <= 100 * n && 100 * n <= r.greatest * d;
}

/* ---- simplification and the inert mixture (000 A.3.1) ---- */

typedef struct {
    uint32_t amounts[COMPONENTS];
    int64_t inert;                      /* the inert mixture's partial number */
} mixture;

static mixture simplify(const uint32_t amounts[CODES])
{
    mixture m;
    uint64_t tenths[COMPONENTS], rest[COMPONENTS], total = 0, given = 0;
    tenths[METHANE] = 10 * (uint64_t)amounts[1];
    tenths[ETHANE] = 10 * (uint64_t)amounts[2];
    tenths[PROPANE] = 10 * (uint64_t)amounts[3];
    tenths[BUTANE] = 10 * ((uint64_t)amounts[4] + amounts[5])
        + 23 * ((uint64_t)amounts[6] + amounts[7] + amounts[8]) + 53 * (uint64_t)amounts[10];
    tenths[HYDROGEN] = 10 * (uint64_t)amounts[15];
    for (int c = 0; c < COMPONENTS; c++)
        total += tenths[c];
    for (int c = 0; c < COMPONENTS; c++) {
        m.amounts[c] = tenths[c] * WHOLE / total;
        rest[c] = tenths[c] * WHOLE % total;
        given += m.amounts[c];
    }
    int raised[COMPONENTS] = { 0 };
    for (; given < WHOLE; given++) {
        int largest = -1;
        for (int c = 0; c < COMPONENTS; c++)
            if (!raised[c] && (largest < 0 || rest[c] > rest[largest]))
                largest = c;
        m.amounts[largest]++;
        raised[largest] = 1;
    }
    uint64_t d = total + 10 * (uint64_t)amounts[11];
    int64_t n1 = (2 * WHOLE * total + d) / (2 * d);
    m.inert = partial_number(INERT, n1, WHOLE - n1, 0);
    return m;
}

/* ---- choice of systems (000 A.3.2) ---- */

static const int system_numbers[CANDIDATES] = { 1, 2, 4, 5, 6, 7, 8 };

/* Members as named: the first two are the formula's variables. */
static const int formula[CANDIDATES][MEMBERS] = {
    { METHANE, HYDROGEN, ETHANE },
    { PROPANE, ETHANE, BUTANE },
    { METHANE, ETHANE, PROPANE },
    { METHANE, HYDROGEN, PROPANE },
    { METHANE, HYDROGEN, BUTANE },
    { METHANE, PROPANE, BUTANE },
    { METHANE, ETHANE, BUTANE },
};

/* Members in the order of a split's records. */
static const int members[CANDIDATES][MEMBERS] = {
    { METHANE, ETHANE, HYDROGEN },
    { ETHANE, PROPANE, BUTANE },
    { METHANE, ETHANE, PROPANE },
    { METHANE, PROPANE, HYDROGEN },
    { METHANE, BUTANE, HYDROGEN },
    { METHANE, PROPANE, BUTANE },
    { METHANE, ETHANE, BUTANE },
};

static const int contains[CANDIDATES][COMPONENTS] = {
    { 1, 1, 0, 0, 1 },
    { 0, 1, 1, 1, 0 },
    { 1, 1, 1, 0, 0 },
    { 1, 0, 1, 0, 1 },
    { 1, 0, 0, 1, 1 },
    { 1, 0, 1, 1, 0 },
    { 1, 1, 0, 1, 0 },
};

/* How many components are present: a choice is made for two or more. */
static int present(const mixture *m)
{
    int count = 0;
    for (int c = 0; c < COMPONENTS; c++)
        count += m->amounts[c] > 0;
    return count;
}

/* A system with more of its components present goes before a fitter one; absent components choose none, and systems
   with hydrogen are no candidates where there is none. The number of systems. */
static int choose(const mixture *m, int systems[CHOSEN])
{
    static const uint64_t weights[COMPONENTS] = { 48, 75, 80, 100, 96 };
    static const int order[COMPONENTS] = { HYDROGEN, PROPANE, ETHANE, BUTANE, METHANE };
    uint64_t fitness[CANDIDATES] = { 0 };
    int there[CANDIDATES] = { 0 };
    int candidates[CANDIDATES], number = 0;
    int chosen[CANDIDATES] = { 0 };
    int times[COMPONENTS] = { 0 };
    for (int s = 0; s < CANDIDATES; s++) {
        if (contains[s][HYDROGEN] && m->amounts[HYDROGEN] == 0)
            continue;
        candidates[number++] = s;
        for (int i = 0; i < MEMBERS; i++) {
            int c = formula[s][i];
            fitness[s] += weights[c] * m->amounts[c];
            there[s] += m->amounts[c] > 0;
        }
    }
    for (int wanted = 1; wanted <= 2; wanted++)
        for (int i = 0; i < COMPONENTS; i++) {
            if (m->amounts[order[i]] == 0 || times[order[i]] >= wanted)
                continue;
            int best = -1;
            for (int j = 0; j < number; j++) {
                int s = candidates[j];
                if (contains[s][order[i]] && !chosen[s]
                    && (best < 0 || there[s] > there[best]
                        || (there[s] == there[best] && fitness[s] > fitness[best])))
                    best = s;
            }
            chosen[best] = 1;
            for (int c = 0; c < COMPONENTS; c++)
                times[c] += contains[best][c];
        }
    int count = 0;
    for (int j = 0; j < number; j++)
        if (chosen[candidates[j]])
            systems[count++] = candidates[j];
    return count;
}

/* 16, or 13 for a chosen system that Table A.2's rule leaves out: it leaves out none of these. */
static saugrinte_answer chosen_for(const mixture *m, int *count, int systems[CHOSEN])
{
    if (present(m) < 2)
        return refused(TOO_FEW, 0);
    *count = choose(m, systems);
    for (int i = 0; i < *count; i++)
        if (places[system_numbers[systems[i]]] == NONE)
            return refused(NO_SYSTEM, 0);
    return done;
}

/* ---- the split and the rating ---- */

typedef struct {
    int count;                          /* of systems, 2 at least */
    int systems[CHOSEN];
    uint32_t amounts[CHOSEN][COMPONENTS];
    int64_t numbers[CHOSEN];
} split;

static const uint8_t split_codes[COMPONENTS] = { 1, 2, 3, 14, 15 };

static int64_t number_of(int system, const uint32_t amounts[COMPONENTS])
{
    const int *f = formula[system];
    return partial_number(system, amounts[f[0]], amounts[f[1]], amounts[f[2]]);
}

static int64_t parts_of(const uint32_t amounts[COMPONENTS])
{
    int64_t sum = 0;
    for (int c = 0; c < COMPONENTS; c++)
        sum += amounts[c];
    return sum;
}

static int64_t spread_of(const split *s)
{
    int64_t least = s->numbers[0], greatest = s->numbers[0];
    for (int i = 1; i < s->count; i++) {
        if (s->numbers[i] < least)
            least = s->numbers[i];
        if (s->numbers[i] > greatest)
            greatest = s->numbers[i];
    }
    return greatest - least;
}

static void rated(const split *s, const mixture *m, int64_t rounds, saugrinte_figures *figures)
{
    int64_t sum = 0;
    for (int i = 0; i < s->count; i++)
        sum += s->numbers[i] * parts_of(s->amounts[i]);
    figures->rating = sum / WHOLE + m->inert - 1000003000;
    figures->spread = spread_of(s);
    figures->rounds = rounds;
}

static saugrinte_answer rate_records(const uint32_t amounts[CODES], size_t count, const uint8_t *systems,
                                     const uint8_t *codes, const uint32_t *parts, saugrinte_figures *figures)
{
    mixture m = simplify(amounts);
    split s = { 0 };
    uint64_t sums[COMPONENTS] = { 0 };
    saugrinte_answer answer = chosen_for(&m, &s.count, s.systems);
    if (answer.number)
        return answer;
    int records = s.count * MEMBERS;
    if (count != (size_t)records)
        return refused(MISFIT, 0);
    for (int r = 0; r < records; r++) {
        int i = r / MEMBERS, c = members[s.systems[i]][r % MEMBERS];
        if (systems[r] != system_numbers[s.systems[i]] || codes[r] != split_codes[c])
            return refused(MISFIT, 0);
        s.amounts[i][c] = parts[r];
        sums[c] += parts[r];
    }
    for (int c = 0; c < COMPONENTS; c++)
        if (sums[c] != m.amounts[c])
            return refused(UNSUMMED, 0);
    for (int i = 0; i < s.count; i++) {
        if (parts_of(s.amounts[i]) == 0)
            return refused(EMPTY_SYSTEM, 0);
        s.numbers[i] = number_of(s.systems[i], s.amounts[i]);
    }
    if (spread_of(&s) > LIMIT)
        return refused(WIDE, 0);
    rated(&s, &m, 0, figures);
    return done;
}

/* ---- the search ---- */

/* Shares each component among the systems chosen; one that is in none of them is absent. */
static void start(const mixture *m, split *s)
{
    for (int c = 0; c < COMPONENTS; c++) {
        uint32_t sharing = 0;
        for (int i = 0; i < s->count; i++)
            sharing += contains[s->systems[i]][c];
        if (sharing == 0)
            continue;
        uint32_t share = m->amounts[c] / sharing, odd = m->amounts[c] % sharing;
        for (int i = 0; i < s->count; i++)
            if (contains[s->systems[i]][c]) {
                s->amounts[i][c] = share + (odd > 0);
                odd -= odd > 0;
            }
    }
    for (int i = 0; i < s->count; i++)
        s->numbers[i] = number_of(s->systems[i], s->amounts[i]);
}

#ifdef KEPT
#include "kept.c"
#else

/* What a search carries from round to round. */
typedef struct {
    uint64_t imbalance;
} state;

/* Over every pair of systems. */
static uint64_t imbalance_of(const int64_t numbers[CHOSEN], int count)
{
    int64_t cut[CHOSEN];
    uint64_t sum = 0;
    for (int i = 0; i < count; i++) {
        cut[i] = numbers[i] / 10000;
        for (int j = 0; j < i; j++)
            sum += (cut[i] - cut[j]) * (cut[i] - cut[j]);
    }
    return sum;
}

static void begin(const split *s, state *at)
{
    at->imbalance = imbalance_of(s->numbers, s->count);
}

/* Carries one stride of component c where that lowers the imbalance. Only the two systems touched are worked out
   again; the numbers are kept with the split. */
static int move(split *s, int c, int from, int to, uint32_t stride, state *at)
{
    if (s->amounts[from][c] < stride || parts_of(s->amounts[from]) == stride)
        return 0;
    int64_t numbers[CHOSEN];
    memcpy(numbers, s->numbers, sizeof numbers);
    s->amounts[from][c] -= stride;
    s->amounts[to][c] += stride;
    numbers[from] = number_of(s->systems[from], s->amounts[from]);
    numbers[to] = number_of(s->systems[to], s->amounts[to]);
    uint64_t after = imbalance_of(numbers, s->count);
    if (after < at->imbalance) {
        memcpy(s->numbers, numbers, sizeof numbers);
        at->imbalance = after;
        return 1;
    }
    s->amounts[from][c] += stride;
    s->amounts[to][c] -= stride;
    return 0;
}

static int first_move(split *s, uint32_t stride, state *at)
{
    for (int c = 0; c < COMPONENTS; c++)
        for (int from = 0; from < s->count; from++)
            for (int to = 0; to < s->count; to++)
                if (from != to && contains[s->systems[from]][c] && contains[s->systems[to]][c]
                    && move(s, c, from, to, stride, at))
                    return 1;
    return 0;
}

#endif

static saugrinte_answer find(const uint32_t amounts[CODES], uint32_t allowance, saugrinte_figures *figures, split *s)
{
    mixture m = simplify(amounts);
    uint32_t stride = 65536, rounds = 0;
    state at;
    memset(s, 0, sizeof *s);
    saugrinte_answer answer = chosen_for(&m, &s->count, s->systems);
    if (answer.number)
        return answer;
    start(&m, s);
    begin(s, &at);
    for (;;) {
        if (spread_of(s) <= LIMIT) {
            rated(s, &m, rounds, figures);
            return done;
        }
        if (rounds == allowance)
            return refused(UNBALANCED, 0);
        if (first_move(s, stride, &at))
            rounds++;
        else if (stride == 1)
            return refused(UNBALANCED, 0);
        else
            stride /= 2;
    }
}

/* ---- the sheet ---- */

typedef struct {
    uint32_t amounts[CODES];
    size_t count;
    uint8_t systems[ROOM], codes[ROOM];
    uint32_t parts[ROOM];
} contents;

static uint32_t four_bytes(const uint8_t *b)
{
    return (uint32_t)b[0] << 24 | (uint32_t)b[1] << 16 | (uint32_t)b[2] << 8 | b[3];
}

static uint8_t *put_four_bytes(uint8_t *b, uint32_t value)
{
    b[0] = value >> 24;
    b[1] = value >> 16;
    b[2] = value >> 8;
    b[3] = value;
    return b + 4;
}

/* How many records a split may have in a sheet. */
static int allowed(size_t count)
{
    return count == 0 || (count >= 6 && count <= 21 && count % 3 == 0);
}

static saugrinte_answer parse(const uint8_t *sheet, size_t length, contents *out)
{
    memset(out, 0, sizeof *out);
    if (length < 1 || sheet[0] > 12 || length < 2 + 5 * (size_t)sheet[0])
        return refused(TORN, 0);
    size_t components = sheet[0];
    const uint8_t *second = sheet + 1 + 5 * components;
    out->count = second[0];
    if (!allowed(out->count) || length != 2 + 5 * components + 6 * out->count)
        return refused(TORN, 0);
    int before = 0;
    uint32_t zeros = 0;
    for (size_t r = 0; r < components; r++) {
        const uint8_t *record = sheet + 1 + 5 * r;
        int code = record[0];
        if (code == 0 || code == 14 || code > 15)
            return refused(UNKNOWN, r);
        if (code == 9 || code == 13)
            return refused(RETIRED, r);
        if (code <= before)
            return refused(OUT_OF_ORDER, r);
        out->amounts[code] = four_bytes(record + 1);
        if (out->amounts[code] == 0)
            zeros |= 1u << code;
        before = code;
    }
    saugrinte_answer checked = check(out->amounts, zeros);
    if (checked.number)
        return checked;
    for (size_t r = 0; r < out->count; r++) {
        const uint8_t *record = second + 1 + 6 * r;
        out->systems[r] = record[0];
        out->codes[r] = record[1];
        out->parts[r] = four_bytes(record + 2);
    }
    return done;
}

/* ---- the interface ---- */

uint32_t saugrinte_version(void)
{
    return SAUGRINTE_VERSION;
}

/* The records of a split that was found, or none, and zeros after them. */
static void put_records(const split *found, size_t *count, uint8_t systems[ROOM], uint8_t codes[ROOM],
                        uint32_t parts[ROOM])
{
    int records = found ? found->count * MEMBERS : 0;
    *count = records;
    memset(systems, 0, ROOM);
    memset(codes, 0, ROOM);
    memset(parts, 0, ROOM * sizeof *parts);
    for (int r = 0; r < records; r++) {
        int i = r / MEMBERS, c = members[found->systems[i]][r % MEMBERS];
        systems[r] = system_numbers[found->systems[i]];
        codes[r] = split_codes[c];
        parts[r] = found->amounts[i][c];
    }
}

saugrinte_answer saugrinte_rate(const uint8_t *sheet, size_t length, saugrinte_figures *figures, size_t *count,
                                uint8_t systems[ROOM], uint8_t codes[ROOM], uint32_t parts[ROOM])
{
    contents read;
    split found;
    saugrinte_answer answer = parse(sheet, length, &read);
    if (answer.number)
        return answer;
    answer = read.count == 0 ? find(read.amounts, ROUNDS, figures, &found)
                             : rate_records(read.amounts, read.count, read.systems, read.codes, read.parts, figures);
    if (answer.number == 0)
        put_records(read.count == 0 ? &found : NULL, count, systems, codes, parts);
    return answer;
}

/* The search of volumes that passed their check, its records put out where it rates. */
static saugrinte_answer find_records(const uint32_t volumes[CODES], uint32_t allowance, saugrinte_figures *figures,
                                     size_t *count, uint8_t systems[ROOM], uint8_t codes[ROOM], uint32_t parts[ROOM])
{
    split found;
    saugrinte_answer answer = find(volumes, allowance < ROUNDS ? allowance : ROUNDS, figures, &found);
    if (answer.number == 0)
        put_records(&found, count, systems, codes, parts);
    return answer;
}

saugrinte_answer saugrinte_search(const uint32_t amounts[CODES], uint32_t allowance, saugrinte_figures *figures,
                                  size_t *count, uint8_t systems[ROOM], uint8_t codes[ROOM], uint32_t parts[ROOM])
{
    saugrinte_answer answer = check(amounts, 0);
    if (answer.number)
        return answer;
    return find_records(amounts, allowance, figures, count, systems, codes, parts);
}

saugrinte_answer saugrinte_rate_split(const uint32_t amounts[CODES], size_t count, const uint8_t systems[ROOM],
                                      const uint8_t codes[ROOM], const uint32_t parts[ROOM], saugrinte_figures *figures)
{
    saugrinte_answer answer = check(amounts, 0);
    if (answer.number)
        return answer;
    return rate_records(amounts, count, systems, codes, parts, figures);
}

saugrinte_answer saugrinte_search_moles(const uint32_t moles[CODES], uint32_t allowance, saugrinte_figures *figures,
                                        size_t *count, uint8_t systems[ROOM], uint8_t codes[ROOM],
                                        uint32_t parts[ROOM])
{
    uint32_t volumes[CODES];
    saugrinte_answer answer = make_volumes(moles, volumes);
    if (answer.number)
        return answer;
    return find_records(volumes, allowance, figures, count, systems, codes, parts);
}

saugrinte_answer saugrinte_rate_split_moles(const uint32_t moles[CODES], size_t count, const uint8_t systems[ROOM],
                                            const uint8_t codes[ROOM], const uint32_t parts[ROOM],
                                            saugrinte_figures *figures)
{
    uint32_t volumes[CODES];
    saugrinte_answer answer = make_volumes(moles, volumes);
    if (answer.number)
        return answer;
    return rate_records(volumes, count, systems, codes, parts, figures);
}

saugrinte_answer saugrinte_convert(const uint32_t moles[CODES], uint32_t amounts[CODES])
{
    return make_volumes(moles, amounts);
}

saugrinte_answer saugrinte_partial_number(uint32_t system, uint32_t n1, uint32_t n2, uint32_t n3, int64_t *number)
{
    if (system >= sizeof places || places[system] == NONE)
        return refused(NO_SYSTEM, 0);
    uint64_t d = (uint64_t)n1 + n2 + n3;
    if (d == 0 || d > WHOLE)
        return refused(NO_MIXTURE, 0);
    int s = places[system];
    if (!in_share(shares[s][0], n1, d) || !in_share(shares[s][1], n2, d) || !in_share(shares[s][2], n3, d))
        return refused(SHARE, 0);
    *number = partial_number(s, n1, n2, n3);
    return done;
}

saugrinte_answer saugrinte_read(const uint8_t *sheet, size_t length, uint32_t amounts[CODES], size_t *count,
                                uint8_t systems[ROOM], uint8_t codes[ROOM], uint32_t parts[ROOM])
{
    contents read;
    saugrinte_answer answer = parse(sheet, length, &read);
    if (answer.number)
        return answer;
    memcpy(amounts, read.amounts, sizeof read.amounts);
    *count = read.count;
    memcpy(systems, read.systems, sizeof read.systems);
    memcpy(codes, read.codes, sizeof read.codes);
    memcpy(parts, read.parts, sizeof read.parts);
    return done;
}

saugrinte_answer saugrinte_write(const uint32_t amounts[CODES], size_t count, const uint8_t systems[ROOM],
                                 const uint8_t codes[ROOM], const uint32_t parts[ROOM], uint8_t *buffer, size_t room,
                                 size_t *length)
{
    if (!allowed(count))
        return refused(TORN, 0);
    saugrinte_answer answer = check(amounts, 0);
    if (answer.number)
        return answer;
    size_t components = 0;
    for (int code = 0; code < CODES; code++)
        components += amounts[code] != 0;
    if (room < 2 + 5 * components + 6 * count)
        return refused(SHORT_BLANK, 0);
    uint8_t *at = buffer;
    *at++ = components;
    for (int code = 0; code < CODES; code++)
        if (amounts[code] != 0) {
            *at++ = code;
            at = put_four_bytes(at, amounts[code]);
        }
    *at++ = count;
    for (size_t r = 0; r < count; r++) {
        *at++ = systems[r];
        *at++ = codes[r];
        at = put_four_bytes(at, parts[r]);
    }
    *length = at - buffer;
    return done;
}

saugrinte_record saugrinte_controller(int64_t rating, uint64_t spread)
{
    saugrinte_record record = { (double)rating / 10000000.0, (double)spread / 10000000.0 };
    return record;
}

int64_t saugrinte_whole_number(int64_t rating)
{
    int64_t whole = rating / 10000000, rest = rating % 10000000;
    if (rest < 0) {
        whole--;
        rest += 10000000;
    }
    return whole + (rest >= 5000000);
}

saugrinte_range saugrinte_code_range(uint32_t code)
{
    saugrinte_range none = { 1, 0 };
    if (code >= CODES || ranges[code].greatest == 0)
        return none;
    saugrinte_range range = { ranges[code].least, ranges[code].greatest };
    return range;
}

saugrinte_range saugrinte_total_range(void)
{
    saugrinte_range range = { LEAST_TOTAL, GREATEST_TOTAL };
    return range;
}
