/* The search of saugrinte.c made faster, which that file includes where KEPT is defined: the benchmark's second plain C
   program. A number that a tried move leads to is worked out once and kept while its row stays, the imbalance comes from
   the sum of the cut numbers and the sum of their squares, and what a giver changes in them is worked out once for all
   its takers. */

#define NOT_KNOWN INT64_MAX

/* The numbers that each row would have with a stride of one component less, and with one more. */
typedef struct {
    uint32_t stride;
    int64_t less[CHOSEN][COMPONENTS], more[CHOSEN][COMPONENTS];
} state;

typedef struct {
    int64_t sum, squares;
} totals;

static void forget(state *t, int row)
{
    for (int c = 0; c < COMPONENTS; c++)
        t->less[row][c] = t->more[row][c] = NOT_KNOWN;
}

static void forget_all(state *t, uint32_t stride, int count)
{
    t->stride = stride;
    for (int row = 0; row < count; row++)
        forget(t, row);
}

/* No stride is 0: the first round forgets all. */
static void begin(const split *s, state *t)
{
    (void)s;
    t->stride = 0;
}

static int64_t number_with(const split *s, int row, int c, uint32_t amount)
{
    uint32_t amounts[COMPONENTS];
    memcpy(amounts, s->amounts[row], sizeof amounts);
    amounts[c] = amount;
    return number_of(s->systems[row], amounts);
}

static int64_t number_less(const split *s, state *t, int row, int c)
{
    if (t->less[row][c] == NOT_KNOWN)
        t->less[row][c] = number_with(s, row, c, s->amounts[row][c] - t->stride);
    return t->less[row][c];
}

static int64_t number_more(const split *s, state *t, int row, int c)
{
    if (t->more[row][c] == NOT_KNOWN)
        t->more[row][c] = number_with(s, row, c, s->amounts[row][c] + t->stride);
    return t->more[row][c];
}

static totals totals_of(const split *s)
{
    totals w = { 0, 0 };
    for (int i = 0; i < s->count; i++) {
        int64_t cut = s->numbers[i] / 10000;
        w.sum += cut;
        w.squares += cut * cut;
    }
    return w;
}

static totals replaced(totals w, int64_t before, int64_t after)
{
    int64_t a = before / 10000, b = after / 10000;
    w.sum += b - a;
    w.squares += b * b - a * a;
    return w;
}

static int64_t imbalance_of(totals w, int count)
{
    return count * w.squares - w.sum * w.sum;
}

/* Carries the stride. The tries that would take it back lead to the numbers before it. */
static void move(split *s, state *t, int c, int from, int to)
{
    int64_t less = t->less[from][c], more = t->more[to][c];
    forget(t, from);
    forget(t, to);
    t->more[from][c] = s->numbers[from];
    t->less[to][c] = s->numbers[to];
    s->amounts[from][c] -= t->stride;
    s->amounts[to][c] += t->stride;
    s->numbers[from] = less;
    s->numbers[to] = more;
}

static int first_move(split *s, uint32_t stride, state *t)
{
    if (t->stride != stride)
        forget_all(t, stride, s->count);
    totals all = totals_of(s);
    int64_t was = imbalance_of(all, s->count);
    for (int c = 0; c < COMPONENTS; c++)
        for (int from = 0; from < s->count; from++) {
            if (!contains[s->systems[from]][c] || s->amounts[from][c] < stride || parts_of(s->amounts[from]) == stride)
                continue;
            totals given = replaced(all, s->numbers[from], number_less(s, t, from, c));
            for (int to = 0; to < s->count; to++) {
                if (from == to || !contains[s->systems[to]][c])
                    continue;
                if (imbalance_of(replaced(given, s->numbers[to], number_more(s, t, to, c)), s->count) < was) {
                    move(s, t, c, from, to);
                    return 1;
                }
            }
        }
    return 0;
}
