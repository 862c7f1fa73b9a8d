// our_pair: answers the same questions as plain_pair, by the library.
#include "krunvedo.h"
#include "pair_program.h"

static struct answer ask(const struct question *q)
{
    krunvedo_bytes sheet = {q->bytes, q->length};
    krunvedo_marks lent_marks = {marks, q->marks};
    krunvedo_queue lent_queue = {queue, q->queue};
    krunvedo_paired pair = krunvedo_pair(sheet, q->claim, lent_marks, lent_queue, q->transition);
    struct answer answer = {.refusal = {pair.refusal.number, pair.refusal.detail}};
    answer.broken = pair.answer == KRUNVEDO_PAIR_BROKEN;
    memcpy(answer.marking, pair.marking, sizeof answer.marking);
    return answer;
}
