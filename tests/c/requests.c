/* Answers many requests from standard input in one run. Each is a letter, the length of a sheet and the sheet, and then the numbers
 * that the letter needs. A number has two bytes, the lower one first. Prints a line for each call, then where the sheet's bytes are no
 * longer what they were one that says so, and after each request a line that is a dot.
 *
 *   R  the counts
 *   H  all that the sheet holds, with every number from 0 to one more than a sheet can have
 *   P  a pair: claim, transition, and how many entries each work area has
 *   L  the listing, or the line of its refusal
 *   W  a walk from a marking: its sixteen tokens, how many transitions, and each of them
 *   F  the same in one list
 *   E  every call
 */
#include "every_call.h"

#define TRANSITIONS 64 /* that a sheet can have */
#define CLAIMS 32
#define STEPS 255 /* that a walk can have */

/* Whether there were so many numbers to read. */
static int read_numbers(size_t count, size_t numbers[]) {
  for (size_t at = 0; at < count; at++) {
    uint8_t bytes[2];
    if (fread(bytes, 1, 2, stdin) != 2) return 0;
    numbers[at] = bytes[0] + (size_t)256 * bytes[1];
  }
  return 1;
}

static void show_held(krunvedo_bytes sheet) {
  show_sheet(sheet);
  for (size_t t = 0; t <= TRANSITIONS + 1; t++) show_transition(sheet, t);
  for (size_t i = 0; i <= CLAIMS + 1; i++) show_claim(sheet, i);
}

static int answer_pair(krunvedo_bytes sheet) {
  size_t asked[4];
  if (!read_numbers(4, asked) || asked[2] > KRUNVEDO_AREA + BEHIND || asked[3] > KRUNVEDO_AREA + BEHIND) return 0;
  show_pair(sheet, asked[0], asked[1], (sizes){asked[2], asked[3]});
  return 1;
}

static void show_page(krunvedo_bytes sheet) {
  krunvedo_written written = show_listing(sheet, enough[0], KRUNVEDO_TEXT);
  krunvedo_refused refusal = {written.number, written.value};
  if (refusal.number != 0) show_refusal_text(refusal, KRUNVEDO_TEXT);
}

static void show_steps(uint16_t marking[KRUNVEDO_PLACES], krunvedo_bytes sheet, krunvedo_list list) {
  show_begin(sheet);
  for (size_t at = 0; at < list.length; at++) show_step(marking, sheet, list.data[at]);
}

static int answer_walk(krunvedo_bytes sheet, void (*show)(uint16_t *, krunvedo_bytes, krunvedo_list)) {
  size_t tokens[KRUNVEDO_PLACES], count, steps[STEPS];
  if (!read_numbers(KRUNVEDO_PLACES, tokens) || !read_numbers(1, &count)) return 0;
  if (count > STEPS || !read_numbers(count, steps)) return 0;
  uint16_t marking[KRUNVEDO_PLACES];
  for (int p = 0; p < KRUNVEDO_PLACES; p++) marking[p] = (uint16_t)tokens[p];
  show(marking, sheet, (krunvedo_list){steps, count});
  return 1;
}

/* Whether there is such a request. */
static int answer(int letter, krunvedo_bytes sheet) {
  switch (letter) {
  case 'R': return show_read(sheet), 1;
  case 'H': return show_held(sheet), 1;
  case 'P': return answer_pair(sheet);
  case 'L': return show_page(sheet), 1;
  case 'W': return answer_walk(sheet, show_steps);
  case 'F': return answer_walk(sheet, show_list);
  case 'E': return show_every_call(sheet), 1;
  default: return 0;
  }
}

int main(void) {
  static uint8_t given[UINT16_MAX], room[UINT16_MAX];
  size_t length;
  make_pattern();
  for (int letter; (letter = getchar()) != EOF;) {
    if (!read_numbers(1, &length) || fread(given, 1, length, stdin) != length) return 1;
    memcpy(room, given, length);
    if (!answer(letter, (krunvedo_bytes){room, length})) return 1;
    printf("%s.\n", memcmp(room, given, length) == 0 ? "" : "sheet changed\n");
  }
  return 0;
}
