// Answers questions about pairs from standard input, each on a line: a claim number, a transition number (two bytes each, the lower one
// first), a byte that says how large the areas are, the sheet's length (two bytes) and the sheet. The areas are filled before each
// question and looked through afterwards. What includes this defines `ask`.
#ifndef PAIR_PROGRAM_H
#define PAIR_PROGRAM_H

#include "plain_text.h"

enum {
    MOST_LENT = AREA_SIZE + 8,
    MOST_FRAMED = 65535, // bytes of a sheet
    FILLING_OF_MARKS = 7,
    FILLING_OF_QUEUE = 7000,
};

struct question {
    size_t claim, transition, marks, queue;
    const uint8_t *bytes;
    size_t length;
};

struct answer {
    struct refusal refusal;
    bool broken;
    uint16_t marking[MOST_PLACES];
};

static uint8_t marks[MOST_LENT];
static uint16_t queue[MOST_LENT];

static struct answer ask(const struct question *q);

// What is left in the areas.

static const char *told(size_t zeros, bool rest)
{
    if (!rest || (zeros != 0 && zeros != AREA_SIZE))
        return " dirty";
    return zeros == 0 ? " kept" : " zero";
}

static const char *left_in_marks(size_t size)
{
    size_t zeros = 0;
    while (zeros < size && marks[zeros] == 0)
        zeros++;
    size_t i = zeros;
    while (i < size && marks[i] == FILLING_OF_MARKS)
        i++;
    return told(zeros, i == size);
}

static const char *left_in_queue(size_t size)
{
    size_t zeros = 0;
    while (zeros < size && queue[zeros] == 0)
        zeros++;
    size_t i = zeros;
    while (i < size && queue[i] == FILLING_OF_QUEUE)
        i++;
    return told(zeros, i == size);
}

static void fill_areas(const struct question *q)
{
    memset(marks, FILLING_OF_MARKS, q->marks);
    for (size_t i = 0; i < q->queue; i++)
        queue[i] = FILLING_OF_QUEUE;
}

static bool show(const struct question *q, const struct answer *answer)
{
    struct text text;
    text.length = 0;
    if (answer->refusal.number != 0)
        put_refusal(&text, answer->refusal);
    else
        put_words(&text, answer->broken ? "broken" : "kept");
    put_words(&text, " marking");
    for (size_t p = 0; p < MOST_PLACES; p++)
        put_labelled(&text, " ", answer->marking[p]);
    put_words(&text, " areas");
    put_words(&text, left_in_marks(q->marks));
    put_words(&text, left_in_queue(q->queue));
    put_words(&text, "\n");
    return write_out(&text);
}

static void take_sizes(struct question *q, uint8_t kind)
{
    static const size_t sizes[][2] = {{20000, 20000}, {19999, 20000}, {20000, 19999}, {20008, 20008}, {0, 0}};
    const size_t *both = sizes[kind < sizeof sizes / sizeof sizes[0] ? kind : 0];
    q->marks = both[0];
    q->queue = both[1];
}

// Answers one question, and says whether there was one.
static bool next_question(void)
{
    static uint8_t room[MOST_FRAMED];
    uint8_t head[7];
    if (take_in(head, sizeof head) < sizeof head)
        return false;
    struct question q = {.bytes = room};
    q.claim = (size_t)(head[0] + 256 * head[1]);
    q.transition = (size_t)(head[2] + 256 * head[3]);
    take_sizes(&q, head[4]);
    q.length = take_in(room, (size_t)(head[5] + 256 * head[6]));
    fill_areas(&q);
    struct answer answer = ask(&q);
    return show(&q, &answer);
}

int main(void)
{
    while (next_question())
        ;
    return 0;
}

#endif
