// plain_listing: reads one sheet on standard input and prints document 01's listing, by the best methods known:
// a table of residues for coefficients of one sign, "broken exactly if A > B" for both signs (Theorem 3 of 004),
// and a directed breadth-first search for the one bad marking that is shown.
#include "plain_sheet.h"

enum { NEVER = 1 << 20 }; // above every value that is looked for

struct claim {
    int16_t k[MOST_PLACES];
    int16_t c;
};

// A sound sheet's numbers, zero beyond place n.
struct sheet {
    struct counts counts;
    bool above; // kind 1
    int32_t start[MOST_PLACES], target[MOST_PLACES];
    int16_t taken[MOST_TRANSITIONS][MOST_PLACES], put[MOST_TRANSITIONS][MOST_PLACES];
    struct claim claims[MOST_CLAIMS], reduced[MOST_CLAIMS];
};

// Of coefficients with one sign, what their sizes reach: by class of residues to the smallest size, the least value.
// The classes stand twice, one after the other, so that a look never has to wrap.
struct reach {
    bool rises, falls;
    int smallest;
    int32_t least[2 * MOST_COEFFICIENT];
};

static uint8_t marks[AREA_SIZE];
static uint16_t queue[AREA_SIZE];

static int size_of(int number)
{
    return number < 0 ? -number : number;
}

static int gcd(int a, int b)
{
    return b == 0 ? a : gcd(b, a % b);
}

// Reading.

static void take_row(int16_t row[MOST_PLACES], const uint8_t *bytes, size_t n)
{
    for (size_t p = 0; p < n; p++)
        row[p] = bytes[p];
}

static void take_tokens(int32_t row[MOST_PLACES], const uint8_t *bytes, size_t n)
{
    for (size_t p = 0; p < n; p++)
        row[p] = bytes[2 * p] + 256 * bytes[2 * p + 1];
}

static void take_claim(struct claim *claim, const uint8_t *bytes, size_t n)
{
    for (size_t p = 0; p < n; p++)
        claim->k[p] = (int16_t)signed_byte(bytes[p]);
    claim->c = (int16_t)signed_word(bytes + n);
}

static void take_sheet(struct sheet *sheet, const uint8_t *bytes)
{
    size_t n = sheet->counts.places;
    const uint8_t *at = bytes + transition_at(sheet->counts, 0);
    for (size_t t = 0; t < sheet->counts.transitions; t++) {
        take_row(sheet->taken[t], at + 2, n);
        take_row(sheet->put[t], at + 2 + n, n);
        at += 2 + 2 * n;
    }
    take_tokens(sheet->start, at + 2, n);
    at += 2 + 2 * n;
    sheet->above = at[2] == 1;
    take_tokens(sheet->target, at + 3, n);
    at += 3 + 2 * n;
    for (size_t i = 0; i < sheet->counts.claims; i++) {
        take_claim(&sheet->claims[i], at + 2, n);
        at += 4 + n;
    }
}

// Twins.

static struct claim reduced_form(const struct claim *claim, size_t n)
{
    int divisor = size_of(claim->c);
    for (size_t p = 0; p < n && divisor != 1; p++)
        divisor = gcd(size_of(claim->k[p]), divisor);
    struct claim form = *claim;
    if (divisor <= 1)
        return form;
    for (size_t p = 0; p < n; p++)
        form.k[p] = (int16_t)(form.k[p] / divisor);
    form.c = (int16_t)(form.c / divisor);
    return form;
}

// The lowest number of an earlier twin of claim i (counted from 0), or 0; its reduced form is kept for later claims.
static size_t earlier_twin(struct sheet *sheet, size_t i)
{
    struct claim *form = &sheet->reduced[i];
    *form = reduced_form(&sheet->claims[i], sheet->counts.places);
    for (size_t j = 0; j < i; j++) {
        const struct claim *earlier = &sheet->reduced[j];
        if (earlier->c == form->c && memcmp(earlier->k, form->k, sizeof form->k) == 0)
            return j + 1;
    }
    return 0;
}

// Values.

static int32_t value_of_weights(const int16_t k[MOST_PLACES], const int16_t weights[MOST_PLACES])
{
    int32_t sum = 0;
    for (size_t p = 0; p < MOST_PLACES; p++)
        sum += k[p] * weights[p];
    return sum;
}

static bool inside(const struct claim *claim, const int32_t tokens[MOST_PLACES])
{
    int32_t sum = 0;
    for (size_t p = 0; p < MOST_PLACES; p++)
        sum += claim->k[p] * tokens[p];
    return sum >= claim->c;
}

// The table of residues.

static void take_signs(struct reach *reach, const int16_t k[MOST_PLACES], size_t n)
{
    reach->rises = reach->falls = false;
    reach->smallest = MOST_COEFFICIENT + 1;
    for (size_t p = 0; p < n; p++) {
        if (k[p] == 0)
            continue;
        *(k[p] > 0 ? &reach->rises : &reach->falls) = true;
        if (size_of(k[p]) < reach->smallest)
            reach->smallest = size_of(k[p]);
    }
}

// The class with the least value among those that steps of a multiple of `apart` connect with the first.
static int lowest_class(const struct reach *reach, int first, int apart)
{
    int lowest = first;
    for (int r = first + apart; r < reach->smallest; r += apart)
        if (reach->least[r] < reach->least[lowest])
            lowest = r;
    return lowest;
}

// One more size: along each chain of classes that it connects, once round, from the class that it cannot lower.
static void sweep(struct reach *reach, int size)
{
    int a = reach->smallest, step = size % a, chains = gcd(a, size), length = a / chains;
    for (int first = 0; first < chains; first++) {
        int r = first == 0 ? 0 : lowest_class(reach, first, chains);
        int value = reach->least[r];
        if (value >= NEVER)
            continue;
        for (int i = 1; i < length; i++) {
            r += step;
            r -= r < a ? 0 : a;
            value += size;
            if (reach->least[r] <= value)
                value = reach->least[r];
            else
                reach->least[r] = value;
        }
    }
}

static void fill_table(struct reach *reach, const int16_t k[MOST_PLACES], size_t n)
{
    int a = reach->smallest;
    reach->least[0] = 0;
    for (int r = 1; r < a; r++)
        reach->least[r] = NEVER;
    for (size_t p = 0; p < n; p++) {
        int size = size_of(k[p]);
        if (size > a && reach->least[size % a] > size)
            sweep(reach, size);
    }
    memcpy(reach->least + a, reach->least, (size_t)a * sizeof reach->least[0]);
}

// Is a value from lo to hi reached?
static bool meets(const struct reach *reach, int lo, int hi)
{
    if (lo < 0)
        lo = 0;
    if (lo > hi)
        return false;
    if (hi - lo >= reach->smallest - 1)
        return true;
    const int32_t *least = reach->least + lo % reach->smallest;
    for (int v = lo; v <= hi; v++)
        if (*least++ <= v)
            return true;
    return false;
}

static bool breaks(const struct reach *reach, int c, int before, int after)
{
    if (before <= after)
        return false;
    if (reach->rises && reach->falls)
        return true;
    return reach->rises ? meets(reach, c - before, c - after - 1) : meets(reach, after + 1 - c, before - c);
}

// The number of the lowest transition that breaks the claim, or 0.
static size_t lowest_breaking(const struct sheet *sheet, const struct claim *claim)
{
    struct reach reach;
    take_signs(&reach, claim->k, sheet->counts.places);
    if (reach.rises != reach.falls)
        fill_table(&reach, claim->k, sheet->counts.places);
    for (size_t t = 0; t < sheet->counts.transitions; t++) {
        int before = value_of_weights(claim->k, sheet->taken[t]);
        int after = value_of_weights(claim->k, sheet->put[t]);
        if (breaks(&reach, claim->c, before, after))
            return t + 1;
    }
    return 0;
}

// The bad marking that is shown.

struct steps {
    size_t count;
    int by[MOST_PLACES];
    uint8_t mark[MOST_PLACES]; // the place, from 1
};

static bool known(const struct steps *steps, int by)
{
    for (size_t i = 0; i < steps->count; i++)
        if (steps->by[i] == by)
            return true;
    return false;
}

// Each coefficient of that sign once: an equal one leads nowhere new.
static struct steps steps_with_sign(const int16_t k[MOST_PLACES], size_t n, int sign)
{
    struct steps steps = {.count = 0};
    for (size_t p = 0; p < n; p++)
        if (k[p] * sign > 0 && !known(&steps, k[p])) {
            steps.by[steps.count] = k[p];
            steps.mark[steps.count++] = (uint8_t)(p + 1);
        }
    return steps;
}

// Breadth first from position `from`, by one token at a time and always towards lo .. hi: the first position there.
// Some position there must be in reach.
static int reach_window(const struct steps *up, const struct steps *down, int from, int lo, int hi)
{
    size_t head = 0, tail = 0;
    int v = from;
    while (v < lo || v > hi) {
        const struct steps *steps = v < lo ? up : down;
        for (size_t i = 0; i < steps->count; i++) {
            int w = v + steps->by[i];
            if (marks[w] != 0)
                continue;
            marks[w] = steps->mark[i];
            queue[tail++] = (uint16_t)w;
        }
        v = queue[head++];
    }
    return v;
}

// The claim's bad marking of least total for a transition that breaks it: the weights taken, and tokens beside them.
static void bad_marking(const struct sheet *sheet, const struct claim *claim, size_t t, int marking[MOST_PLACES])
{
    size_t n = sheet->counts.places;
    int before = value_of_weights(claim->k, sheet->taken[t]);
    int lo = claim->c - before, hi = claim->c - value_of_weights(claim->k, sheet->put[t]) - 1;
    int lowest = hi - (MOST_COEFFICIENT - 1), highest = lo + (MOST_COEFFICIENT - 1); // where steps can lead
    int from = lowest < 0 ? -lowest : 0;
    size_t size = (size_t)(from + (highest > 0 ? highest : 0) + 1);
    struct steps up = steps_with_sign(claim->k, n, 1), down = steps_with_sign(claim->k, n, -1);
    memset(marks, 0, size);
    marks[from] = UINT8_MAX;
    for (size_t p = 0; p < n; p++)
        marking[p] = sheet->taken[t][p];
    int v = reach_window(&up, &down, from, from + lo, from + hi);
    while (v != from) {
        int p = marks[v] - 1;
        marking[p]++;
        v -= claim->k[p];
    }
}

// The listing.

static void put_broken(struct text *text, const struct sheet *sheet, const struct claim *claim, size_t transition)
{
    int marking[MOST_PLACES];
    bad_marking(sheet, claim, transition - 1, marking);
    put_labelled(text, " broken ", transition);
    for (size_t p = 0; p < sheet->counts.places; p++)
        put_labelled(text, " ", (size_t)marking[p]);
}

static bool target_inside(const struct sheet *sheet, const struct claim *claim)
{
    if (inside(claim, sheet->target))
        return true;
    for (size_t p = 0; sheet->above && p < sheet->counts.places; p++)
        if (claim->k[p] > 0)
            return true;
    return false;
}

static void put_verdict(struct text *text, const struct sheet *sheet, const struct claim *claim)
{
    if (!inside(claim, sheet->start)) {
        put_words(text, " start-outside");
        return;
    }
    if (target_inside(sheet, claim)) {
        put_words(text, " target-inside");
        return;
    }
    size_t transition = lowest_breaking(sheet, claim);
    if (transition == 0)
        put_words(text, " proof");
    else
        put_broken(text, sheet, claim, transition);
}

static void put_listing(struct text *text, struct sheet *sheet)
{
    put_labelled(text, "places ", sheet->counts.places);
    put_labelled(text, " transitions ", sheet->counts.transitions);
    put_labelled(text, " claims ", sheet->counts.claims);
    put_words(text, "\n");
    for (size_t i = 0; i < sheet->counts.claims; i++) {
        put_labelled(text, "claim ", i + 1);
        put_verdict(text, sheet, &sheet->claims[i]);
        size_t twin = earlier_twin(sheet, i);
        if (twin != 0)
            put_labelled(text, " twin ", twin);
        put_words(text, "\n");
    }
    memset(marks, 0, sizeof marks);
    memset(queue, 0, sizeof queue);
}

int main(void)
{
    static uint8_t room[MOST_KEPT];
    static struct sheet sheet;
    static struct text text;
    struct reader reader = {.bytes = room, .length = take_in(room, sizeof room)};
    if (read_sheet(&reader, &sheet.counts)) {
        take_sheet(&sheet, room);
        put_listing(&text, &sheet);
    } else {
        put_refusal(&text, reader.refusal);
        put_words(&text, "\n");
    }
    return write_out(&text) ? 0 : 1;
}
