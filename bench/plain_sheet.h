// What both plain programs share: a sheet that is checked once (document 01, and 02 for refusal 18).
// It stands in a header so that the compiler sees a whole program at once, as it does for Rattle.
#ifndef PLAIN_SHEET_H
#define PLAIN_SHEET_H

#include "plain_text.h"

struct counts {
    size_t places, transitions, claims;
};

// A sheet while it is read: `at` is the first byte of the record at hand.
struct reader {
    const uint8_t *bytes;
    size_t length, at;
    struct refusal refusal;
};

static bool refuse(struct reader *r, int number, size_t detail)
{
    r->refusal = (struct refusal){number, detail};
    return false;
}

static bool marked(struct reader *r, char first, char second)
{
    if (r->length - r->at < 2)
        return refuse(r, 1, r->at);
    if (r->bytes[r->at] != (uint8_t)first || r->bytes[r->at + 1] != (uint8_t)second)
        return refuse(r, 2, r->at);
    return true;
}

static bool whole(struct reader *r, size_t size)
{
    return r->length - r->at >= size || refuse(r, 1, r->at);
}

static bool read_head(struct reader *r, struct counts *counts)
{
    if (!marked(r, 'N', 'P') || !whole(r, 4))
        return false;
    counts->places = r->bytes[2];
    counts->transitions = r->bytes[3];
    if (counts->places < 1 || counts->places > MOST_PLACES)
        return refuse(r, 3, 2);
    if (counts->transitions > MOST_TRANSITIONS)
        return refuse(r, 3, 3);
    r->at = 4;
    return true;
}

static bool read_transition(struct reader *r, size_t n)
{
    if (!marked(r, 'T', 'R') || !whole(r, 2 + 2 * n))
        return false;
    const uint8_t *weights = r->bytes + r->at + 2;
    for (size_t i = 0; i < 2 * n; i++)
        if (weights[i] > MOST_WEIGHT)
            return refuse(r, 4, r->at + 2 + i);
    r->at += 2 + 2 * n;
    return true;
}

static bool read_start(struct reader *r, size_t n)
{
    if (!marked(r, 'M', 'K') || !whole(r, 2 + 2 * n))
        return false;
    r->at += 2 + 2 * n;
    return true;
}

static bool read_target(struct reader *r, size_t n)
{
    if (!marked(r, 'T', 'G') || !whole(r, 3 + 2 * n))
        return false;
    if (r->bytes[r->at + 2] > MOST_KIND)
        return refuse(r, 5, r->at + 2);
    r->at += 3 + 2 * n;
    return true;
}

static int signed_byte(uint8_t byte)
{
    return byte < 128 ? byte : byte - 256;
}

static int signed_word(const uint8_t *bytes)
{
    int word = bytes[0] + 256 * bytes[1];
    return word < 32768 ? word : word - 65536;
}

static bool read_claim(struct reader *r, size_t n, size_t before)
{
    if (!marked(r, 'H', 'S'))
        return false;
    if (before == MOST_CLAIMS)
        return refuse(r, 8, r->at);
    if (!whole(r, 4 + n))
        return false;
    size_t from = r->at + 2;
    uint8_t bits = 0; // of all coefficients
    for (size_t at = from; at < from + n; at++) {
        int k = signed_byte(r->bytes[at]);
        bits |= r->bytes[at];
        if (k < -MOST_COEFFICIENT || k > MOST_COEFFICIENT)
            return refuse(r, 6, at);
    }
    int c = signed_word(r->bytes + from + n);
    if (c < -MOST_CONSTANT || c > MOST_CONSTANT)
        return refuse(r, 7, from + n);
    if (bits == 0)
        return refuse(r, 18, r->at);
    r->at += 4 + n;
    return true;
}

static bool read_claims(struct reader *r, struct counts *counts)
{
    if (r->at == r->length)
        return refuse(r, 9, r->length);
    counts->claims = 0;
    while (r->at < r->length) {
        if (!read_claim(r, counts->places, counts->claims))
            return false;
        counts->claims++;
    }
    return true;
}

// Reads the sheet, left to right and once.
static bool read_sheet(struct reader *r, struct counts *counts)
{
    if (!read_head(r, counts))
        return false;
    for (size_t t = 0; t < counts->transitions; t++)
        if (!read_transition(r, counts->places))
            return false;
    return read_start(r, counts->places) && read_target(r, counts->places) && read_claims(r, counts);
}

static size_t transition_at(struct counts counts, size_t index)
{
    return 4 + index * (2 + 2 * counts.places);
}

#endif
