/* Makes every call of the library on a sheet from standard input, and prints a line for each answer. The calls that need no area stand
 * in calls.h. */
#include "calls.h"

#include <string.h>

#define MOST 4096 /* bytes of a sheet: none that is sound is longer */

static uint8_t marks[KRUNVEDO_AREA];
static uint16_t queue[KRUNVEDO_AREA];
static uint8_t text[KRUNVEDO_TEXT];

static void show_judged(krunvedo_bytes sheet, size_t i, size_t area) {
  krunvedo_marks lent_marks = {marks, area};
  krunvedo_queue lent_queue = {queue, area};
  open_pair(i, krunvedo_pair(sheet, i, lent_marks, lent_queue, 1));
  end_line();
  open_verdict(i, krunvedo_verdict(sheet, i, lent_marks, lent_queue));
  end_line();
}

/* Empties the text's area: sharps fill it. */
static krunvedo_text empty_text(size_t length) {
  memset(text, '#', sizeof text);
  return (krunvedo_text){text, length};
}

/* The text if there is one, and the byte behind it: a sharp, since that stays. */
static void show_written(const char *call, krunvedo_written written) {
  size_t length = written.number == 0 ? written.value : 0;
  printf("%s: number %u, value %zu\n", call, written.number, written.value);
  fwrite(text, 1, length + 1, stdout);
  end_line();
}

static void show_listing(krunvedo_bytes sheet, size_t area, size_t room) {
  krunvedo_marks lent_marks = {marks, area};
  krunvedo_queue lent_queue = {queue, area};
  show_written("listing", krunvedo_listing(sheet, lent_marks, lent_queue, empty_text(room)));
}

static void show_texts(krunvedo_bytes sheet) {
  krunvedo_bytes cut = {sheet.data, sheet.length > 0 ? sheet.length - 1 : 0};
  show_listing(sheet, KRUNVEDO_AREA, KRUNVEDO_TEXT);
  show_listing(sheet, KRUNVEDO_AREA, KRUNVEDO_TEXT - 1);
  show_listing(sheet, KRUNVEDO_AREA - 1, KRUNVEDO_TEXT - 1);
  show_listing(cut, KRUNVEDO_AREA - 1, KRUNVEDO_TEXT - 1);
  show_written("refusal_text", krunvedo_refusal_text(1, 47, empty_text(KRUNVEDO_TEXT)));
  show_written("refusal_text", krunvedo_refusal_text(UINT8_MAX, SIZE_MAX, empty_text(KRUNVEDO_TEXT)));
  show_written("refusal_text", krunvedo_refusal_text(1, 47, empty_text(KRUNVEDO_TEXT - 1)));
}

static void show_walk(krunvedo_bytes sheet) {
  krunvedo_tokens walk = show_begin(sheet);
  walk.tokens[KRUNVEDO_PLACES - 1] = 7; /* beyond the sheet's places, so it stays */
  for (int step = 0; step < 3; step++) show_step(walk.tokens, sheet, 1);
  show_step(walk.tokens, sheet, 2);
}

static void show_lists(krunvedo_bytes sheet) {
  static const size_t lengths[] = {0, 3, 2, KRUNVEDO_FIRINGS + 1};
  size_t ones[KRUNVEDO_FIRINGS + 1];
  for (size_t at = 0; at <= KRUNVEDO_FIRINGS; at++) ones[at] = 1;
  krunvedo_tokens walk = krunvedo_begin(sheet);
  for (int list = 0; list < 4; list++) show_list(walk.tokens, sheet, (krunvedo_list){ones, lengths[list]});
}

int main(void) {
  static uint8_t room[MOST];
  krunvedo_bytes sheet = {room, fread(room, 1, MOST, stdin)};
  show_sheet(sheet);
  for (size_t t = 0; t <= 2; t++) show_transition(sheet, t);
  for (size_t i = 0; i <= 6; i++) show_claim(sheet, i);
  for (size_t i = 0; i <= 6; i++) show_judged(sheet, i, KRUNVEDO_AREA);
  show_judged(sheet, 4, KRUNVEDO_AREA - 1);
  show_texts(sheet);
  show_walk(sheet);
  show_lists(sheet);
  return 0;
}
