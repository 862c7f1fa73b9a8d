/* areas.h: makes the calls that are lent areas, and prints with each answer a word on what became of them. */
#ifndef AREAS_H
#define AREAS_H

#include "calls.h"

#include <string.h>

#define BEHIND 32 /* entries behind each area that a call must leave alone */
#define PART 32   /* entries; an area and those behind it are a multiple of it */

static uint8_t fresh_marks[KRUNVEDO_AREA + BEHIND], marks[KRUNVEDO_AREA + BEHIND];
static uint16_t fresh_queue[KRUNVEDO_AREA + BEHIND], queue[KRUNVEDO_AREA + BEHIND];
static uint8_t fresh_text[KRUNVEDO_TEXT + BEHIND], text[KRUNVEDO_TEXT + BEHIND];

/* Entries of the two work areas. */
typedef struct {
  size_t marks;
  size_t queue;
} sizes;

/* A pattern without a zero, so that what was cleared and what was left alone can be told apart; and sharps, since no text has one. */
static void make_pattern(void) {
  memset(fresh_text, '#', sizeof fresh_text);
  for (size_t at = 0; at < KRUNVEDO_AREA + BEHIND; at++) {
    fresh_marks[at] = (uint8_t)(1 + at % 251);
    fresh_queue[at] = (uint16_t)(1 + at % 65521);
  }
}

/* In small parts, as this once ran under an emulator, where a large one took as long as a byte at a time. */
static void fill_areas(void) {
  for (size_t at = 0; at < KRUNVEDO_AREA + BEHIND; at += PART) {
    memcpy(marks + at, fresh_marks + at, PART * sizeof marks[0]);
    memcpy(queue + at, fresh_queue + at, PART * sizeof queue[0]);
  }
}

/* kept: all is as it was. zero: the entries that an area must have are zero, and the rest is as it was. */
static const char *left_in(const void *area, const void *before, size_t entry) {
  static const uint16_t zeros[KRUNVEDO_AREA];
  size_t cleared = KRUNVEDO_AREA * entry, rest = BEHIND * entry;
  if (memcmp(area, before, cleared + rest) == 0) return "kept";
  int zero = memcmp(area, zeros, cleared) == 0;
  int rest_kept = memcmp((const char *)area + cleared, (const char *)before + cleared, rest) == 0;
  return zero && rest_kept ? "zero" : "dirty";
}

static void show_areas(sizes lent) {
  printf(", marks %zu %s", lent.marks, left_in(marks, fresh_marks, sizeof marks[0]));
  printf(", queue %zu %s", lent.queue, left_in(queue, fresh_queue, sizeof queue[0]));
}

static void show_pair(krunvedo_bytes sheet, size_t i, size_t t, sizes lent) {
  fill_areas();
  krunvedo_marks lent_marks = {marks, lent.marks};
  krunvedo_queue lent_queue = {queue, lent.queue};
  open_pair(i, krunvedo_pair(sheet, i, lent_marks, lent_queue, t));
  printf(", by transition %zu", t);
  show_areas(lent);
  end_line();
}

static void show_verdict(krunvedo_bytes sheet, size_t i, sizes lent) {
  fill_areas();
  krunvedo_marks lent_marks = {marks, lent.marks};
  krunvedo_queue lent_queue = {queue, lent.queue};
  open_verdict(i, krunvedo_verdict(sheet, i, lent_marks, lent_queue));
  show_areas(lent);
  end_line();
}

/* written: the text is as long as was said. kept: nothing is written. */
static const char *left_in_text(krunvedo_written written) {
  size_t length = 0;
  while (length < sizeof text && text[length] != '#') length++;
  int rest_kept = memcmp(text + length, fresh_text, sizeof text - length) == 0;
  if (!rest_kept || length != (written.number == 0 ? written.value : 0)) return "dirty";
  return written.number == 0 ? "written" : "kept";
}

/* Opens a line, and gives back how many bytes of text are to follow it. */
static size_t open_written(const char *call, size_t room, krunvedo_written written) {
  const char *left = left_in_text(written);
  int is_text = strcmp(left, "written") == 0;
  printf("%s: number %u at %zu, text %zu %s", call, written.number, is_text ? 0 : written.value, room, left);
  return is_text ? written.value : 0;
}

/* The answer too: a refusal's line can be asked for then. */
static krunvedo_written show_listing(krunvedo_bytes sheet, sizes lent, size_t room) {
  fill_areas();
  memcpy(text, fresh_text, sizeof text);
  krunvedo_marks lent_marks = {marks, lent.marks};
  krunvedo_queue lent_queue = {queue, lent.queue};
  krunvedo_text lent_text = {text, room};
  krunvedo_written written = krunvedo_listing(sheet, lent_marks, lent_queue, lent_text);
  size_t length = open_written("listing", room, written);
  show_areas(lent);
  end_line();
  fwrite(text, 1, length, stdout);
  return written;
}

static void show_refusal_text(krunvedo_refused refusal, size_t room) {
  memcpy(text, fresh_text, sizeof text);
  krunvedo_text lent_text = {text, room};
  size_t length = open_written("refusal_text", room, krunvedo_refusal_text(refusal.number, refusal.detail, lent_text));
  end_line();
  fwrite(text, 1, length, stdout);
}

#endif
