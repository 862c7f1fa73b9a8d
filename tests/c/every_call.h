/* every_call.h: makes every call of the library on a sheet, for every number of a claim and of a transition from 0 to one above the
 * count, and for one far above; but of the pairs only some. */
#ifndef EVERY_CALL_H
#define EVERY_CALL_H

#include "areas.h"

#define FAR ((size_t)1 << 32 | 1) /* a number that nothing has; in 8, 16 or 32 bits it is 1 */
#define PAIRS 24                  /* pairs asked about on a sheet, or a few more */

static const sizes enough[] = {{KRUNVEDO_AREA, KRUNVEDO_AREA}, {KRUNVEDO_AREA + 8, KRUNVEDO_AREA + 1}};
static const sizes too_few[] = {{KRUNVEDO_AREA - 1, KRUNVEDO_AREA}, {KRUNVEDO_AREA, KRUNVEDO_AREA - 1}, {0, 0}};

/* The numbers asked for are 0 to one above the count, and a far one. */
static size_t last_asked(size_t count) { return count + 2; }

static size_t asked(size_t index, size_t count) { return index < last_asked(count) ? index : FAR; }

/* Every pair of a very small sheet; of a larger one a part, spread over its claims and transitions. */
static void show_pairs(krunvedo_bytes sheet, size_t claims, size_t transitions) {
  size_t step = 1 + (last_asked(claims) + 1) * (last_asked(transitions) + 1) / PAIRS;
  for (size_t i = 0; i <= last_asked(claims); i++)
    for (size_t t = i % step; t <= last_asked(transitions); t += step)
      show_pair(sheet, asked(i, claims), asked(t, transitions), enough[(i + t) % 2]);
}

/* Claim 0 or transition 0 is refused before an area is. */
static void show_too_few(krunvedo_bytes sheet) {
  for (size_t i = 0; i <= 2; i++) {
    show_verdict(sheet, i, too_few[i]);
    show_pair(sheet, i, 1, too_few[i]);
  }
  show_pair(sheet, 1, 0, too_few[0]);
}

static void show_texts(krunvedo_bytes sheet, krunvedo_refused refusal) {
  show_listing(sheet, enough[0], KRUNVEDO_TEXT);
  show_listing(sheet, enough[1], KRUNVEDO_TEXT + 1);
  show_listing(sheet, enough[0], KRUNVEDO_TEXT - 1);
  show_listing(sheet, too_few[0], KRUNVEDO_TEXT - 1);
  show_listing(sheet, too_few[1], KRUNVEDO_TEXT);
  show_refusal_text(refusal, KRUNVEDO_TEXT);
  show_refusal_text(refusal, KRUNVEDO_TEXT - 1);
}

/* A walk by every transition in turn: from the start with other numbers beyond the places, and from nearly full places. */
static void show_walks(krunvedo_bytes sheet, krunvedo_counted counts) {
  krunvedo_tokens walk = show_begin(sheet);
  for (size_t p = counts.places; p < KRUNVEDO_PLACES; p++) walk.tokens[p] = (uint16_t)(7 + p);
  for (size_t t = 0; t <= last_asked(counts.transitions); t++)
    show_step(walk.tokens, sheet, asked(t, counts.transitions));
  for (size_t p = 0; p < KRUNVEDO_PLACES; p++) walk.tokens[p] = (uint16_t)(UINT16_MAX - p);
  for (size_t t = 0; t <= last_asked(counts.transitions); t++)
    show_step(walk.tokens, sheet, asked(t, counts.transitions));
}

/* In one list the transitions asked for but 0, then those that there are, then none; from the start and from nearly full places. */
static void show_lists(krunvedo_bytes sheet, krunvedo_counted counts) {
  static size_t list[UINT8_MAX];
  size_t last = last_asked(counts.transitions);
  for (size_t t = 1; t <= last; t++) list[t - 1] = asked(t, counts.transitions);
  krunvedo_tokens walk = krunvedo_begin(sheet);
  for (int from = 0; from < 2; from++) {
    show_list(walk.tokens, sheet, (krunvedo_list){list, last});
    show_list(walk.tokens, sheet, (krunvedo_list){list, counts.transitions});
    show_list(walk.tokens, sheet, (krunvedo_list){list, 0});
    for (size_t p = 0; p < KRUNVEDO_PLACES; p++) walk.tokens[p] = (uint16_t)(UINT16_MAX - p);
  }
}

static void show_every_call(krunvedo_bytes sheet) {
  krunvedo_counted counts = show_sheet(sheet);
  for (size_t t = 0; t <= last_asked(counts.transitions); t++) show_transition(sheet, asked(t, counts.transitions));
  for (size_t i = 0; i <= last_asked(counts.claims); i++) show_claim(sheet, asked(i, counts.claims));
  for (size_t i = 0; i <= last_asked(counts.claims); i++) show_verdict(sheet, asked(i, counts.claims), enough[i % 2]);
  show_pairs(sheet, counts.claims, counts.transitions);
  show_too_few(sheet);
  show_texts(sheet, counts.refusal);
  show_walks(sheet, counts);
  show_lists(sheet, counts);
}

#endif
