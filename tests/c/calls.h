/* calls.h: makes calls of the library, and prints a line for each answer, for the programs of this folder. */
#ifndef CALLS_H
#define CALLS_H

#include "krunvedo.h"

#include <stdio.h>

/* A line opens with the call, what it was asked for and its refusal. */
static void open_line(const char *call, size_t asked, krunvedo_refused refusal) {
  printf("%s %zu: refusal %u at %zu", call, asked, refusal.number, refusal.detail);
}

static void end_line(void) { printf("\n"); }

/* A number of a row, behind a space: most that is printed. By hand, which takes a part of printf's time. */
static void number(int n) {
  char digits[8];
  size_t at = sizeof digits;
  unsigned left = (unsigned)(n < 0 ? -n : n);
  do digits[--at] = (char)('0' + left % 10);
  while ((left /= 10) > 0);
  if (n < 0) digits[--at] = '-';
  digits[--at] = ' ';
  fwrite(digits + at, 1, sizeof digits - at, stdout);
}

static void bytes(const char *name, const uint8_t row[KRUNVEDO_PLACES]) {
  printf(", %s", name);
  for (int p = 0; p < KRUNVEDO_PLACES; p++) number(row[p]);
}

static void tokens(const uint16_t row[KRUNVEDO_PLACES]) {
  printf(", tokens");
  for (int p = 0; p < KRUNVEDO_PLACES; p++) number(row[p]);
}

static void space(const char *call, size_t i, krunvedo_space h) {
  open_line(call, i, h.refusal);
  printf(", coefficients");
  for (int p = 0; p < KRUNVEDO_PLACES; p++) number(h.coefficients[p]);
  printf(", constant %d", h.constant);
  end_line();
}

/* The counts too: they say what else there is to ask for. */
static krunvedo_counted show_read(krunvedo_bytes sheet) {
  krunvedo_counted counts = krunvedo_read(sheet);
  open_line("read", 0, counts.refusal);
  printf(", counts %zu %zu %zu", counts.places, counts.transitions, counts.claims);
  end_line();
  return counts;
}

static krunvedo_counted show_sheet(krunvedo_bytes sheet) {
  krunvedo_counted counts = show_read(sheet);
  krunvedo_tokens start = krunvedo_start(sheet);
  open_line("start", 0, start.refusal);
  tokens(start.tokens);
  end_line();
  krunvedo_aim target = krunvedo_target(sheet);
  open_line("target", 0, target.refusal);
  printf(", kind %u", target.kind);
  tokens(target.tokens);
  end_line();
  return counts;
}

static void show_transition(krunvedo_bytes sheet, size_t t) {
  krunvedo_weighted weights = krunvedo_weights(sheet, t);
  open_line("weights", t, weights.refusal);
  bytes("taken", weights.taken);
  bytes("put", weights.put);
  end_line();
}

static void show_claim(krunvedo_bytes sheet, size_t i) {
  space("half_space", i, krunvedo_half_space(sheet, i));
  space("reduced", i, krunvedo_reduced(sheet, i));
  open_line("claim_check", i, krunvedo_claim_check(sheet, i));
  end_line();
  krunvedo_record record = krunvedo_claim_record(sheet, i);
  open_line("claim_record", i, record.refusal);
  printf(", from %zu, length %zu", record.offset, record.length);
  end_line();
  krunvedo_twinned twin = krunvedo_twin(sheet, i);
  open_line("twin", i, twin.refusal);
  printf(", claim %zu", twin.claim);
  end_line();
}

/* An answer on a pair, and a verdict; the line stays open for what became of the areas. */
static void open_pair(size_t i, krunvedo_paired pair) {
  open_line("pair", i, pair.refusal);
  printf(", answer %u", pair.answer);
  tokens(pair.marking);
}

static void open_verdict(size_t i, krunvedo_judged verdict) {
  open_line("verdict", i, verdict.refusal);
  printf(", answer %u, transition %zu", verdict.answer, verdict.transition);
  tokens(verdict.marking);
}

/* The answer too: a walk goes on from there. */
static krunvedo_tokens show_begin(krunvedo_bytes sheet) {
  krunvedo_tokens walk = krunvedo_begin(sheet);
  open_line("begin", 0, walk.refusal);
  tokens(walk.tokens);
  end_line();
  return walk;
}

static void show_step(uint16_t marking[KRUNVEDO_PLACES], krunvedo_bytes sheet, size_t t) {
  krunvedo_refused refusal = krunvedo_step(marking, sheet, t);
  open_line("step", t, refusal);
  tokens(marking);
  end_line();
}

/* What was asked for is the list's length. */
static void show_list(uint16_t marking[KRUNVEDO_PLACES], krunvedo_bytes sheet, krunvedo_list list) {
  krunvedo_fired fired = krunvedo_fire_list(marking, sheet, list);
  open_line("fire_list", list.length, fired.refusal);
  printf(", position %zu", fired.position);
  tokens(marking);
  end_line();
}

#endif
