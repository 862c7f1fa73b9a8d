// plain_pair: answers questions about pairs by the same method as crates/search and those below it: a breadth-first search over values,
// in a table that just holds the window of Theorem 1 and one step on either side, by steps of each coefficient but 0 once.
#include "pair_program.h"
#include "plain_sheet.h"

// Positions of the table: those of 0 and of the window's ends, and how many there are.
struct table {
    int start, lo, hi, size;
};

// The search.

static int larger(int a, int b)
{
    return a < b ? b : a;
}

// Each coefficient but 0 once, with a place where it stands.
struct row {
    size_t count;
    int8_t k[MOST_PLACES];
    uint8_t place[MOST_PLACES];
};

static struct row distinct(const int8_t k[], size_t n)
{
    struct row row;
    row.count = 0;
    for (size_t p = 0; p < n; p++)
        if (k[p] != 0 && memchr(row.k, k[p], row.count) == NULL) {
            row.k[row.count] = k[p];
            row.place[row.count++] = (uint8_t)p;
        }
    return row;
}

static int longest(const struct row *row)
{
    int most = 0;
    for (size_t i = 0; i < row->count; i++)
        most = larger(most, larger(row->k[i], -row->k[i]));
    return most;
}

// The table for a window from lo to hi and steps of at most m.
static struct table placed(int lo, int hi, int m)
{
    int start = larger(larger(0, -lo), m - hi);
    return (struct table){start, start + lo, start + hi, larger(start + 1, start + lo + m)};
}

// The first position in the window, in breadth-first order, or -1.
static int reach_window(const struct row *row, struct table table)
{
    marks[table.start] = UINT8_MAX;
    queue[0] = (uint16_t)table.start;
    size_t tail = 1;
    for (size_t head = 0; head < tail; head++) {
        int v = queue[head];
        if (table.lo <= v && v <= table.hi)
            return v;
        for (size_t i = 0; i < row->count; i++) {
            int w = v + row->k[i];
            if (w < 0 || w >= table.size || marks[w] != 0)
                continue;
            marks[w] = (uint8_t)(i + 1);
            queue[tail++] = (uint16_t)w;
        }
    }
    return -1;
}

// Whether some x has a value from lo to hi, and the x of least total, which is added to the marking.
static bool find(const int8_t k[], size_t n, int lo, int hi, uint16_t marking[])
{
    if (hi < lo)
        return false;
    struct row row = distinct(k, n);
    struct table table = placed(lo, hi, longest(&row));
    memset(marks, 0, (size_t)table.size);
    int v = reach_window(&row, table);
    if (v < 0)
        return false;
    while (v != table.start) {
        int i = marks[v] - 1;
        marking[row.place[i]]++;
        v -= row.k[i];
    }
    return true;
}

// The pair question.

static int value_of(const int8_t k[], const uint8_t weights[], size_t n)
{
    int sum = 0;
    for (size_t p = 0; p < n; p++)
        sum += k[p] * weights[p];
    return sum;
}

static size_t claim_at(struct counts counts, size_t index)
{
    size_t n = counts.places;
    return transition_at(counts, counts.transitions) + (2 + 2 * n) + (3 + 2 * n) + index * (4 + n);
}

static void ask_in(const struct question *q, struct counts counts, struct answer *answer)
{
    size_t n = counts.places;
    const uint8_t *claim = q->bytes + claim_at(counts, q->claim - 1) + 2;
    const uint8_t *taken = q->bytes + transition_at(counts, q->transition - 1) + 2;
    int8_t k[MOST_PLACES];
    uint16_t marking[MOST_PLACES] = {0};
    for (size_t p = 0; p < n; p++) {
        k[p] = (int8_t)signed_byte(claim[p]);
        marking[p] = taken[p];
    }
    int c = signed_word(claim + n);
    answer->broken = find(k, n, c - value_of(k, taken, n), c - value_of(k, taken + n, n) - 1, marking);
    if (answer->broken)
        memcpy(answer->marking, marking, sizeof marking);
    memset(marks, 0, AREA_SIZE * sizeof marks[0]);
    memset(queue, 0, AREA_SIZE * sizeof queue[0]);
}

static bool refused(const struct question *q, struct reader *reader, struct counts *counts)
{
    if (!read_sheet(reader, counts))
        return true;
    if (q->claim < 1 || q->claim > counts->claims)
        return !refuse(reader, 11, q->claim);
    if (q->transition < 1 || q->transition > counts->transitions)
        return !refuse(reader, 12, q->transition);
    if (q->marks < AREA_SIZE || q->queue < AREA_SIZE)
        return !refuse(reader, 13, 0);
    return false;
}

static struct answer ask(const struct question *q)
{
    struct answer answer = {.refusal = {0}};
    struct reader reader = {.bytes = q->bytes, .length = q->length};
    struct counts counts;
    if (refused(q, &reader, &counts))
        answer.refusal = reader.refusal;
    else
        ask_in(q, counts, &answer);
    return answer;
}
