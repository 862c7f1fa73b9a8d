/* krunvedo.h: the Krunvedo library for C and for languages that call C. Link libkrunvedo.a (`scripts/library` writes it to
 * target/staticlib/). It is for x86-64 Linux and needs of the C library only memcpy and memset.
 *
 * What each call answers is set out in documents 01 and 02, and proved for every input: any bytes may stand in a sheet, and any
 * number may be asked for. All that a caller owes is valid memory, the same that a reference of Rust's is:
 *
 *  - A slice's pointer is not null, even where its length is 0, is aligned for its entries, and has that many of them behind it.
 *  - What is lent to be written (`marks`, `queue`, `text`, `tokens`) overlaps nothing else that the same call is given, and nobody else
 *    touches it during the call.
 *
 * No call keeps a pointer, allocates memory or holds state: calls may run at the same time on memory of their own.
 *
 * Places, transitions and claims are numbered from 1. Rows have 16 numbers; those beyond the sheet's places are 0.
 */
#ifndef KRUNVEDO_H
#define KRUNVEDO_H

#include <stddef.h>
#include <stdint.h>

#ifdef __cplusplus
extern "C" {
#endif

#define KRUNVEDO_PLACES 16 /* numbers in a row */
#define KRUNVEDO_AREA 20000 /* entries that each work area must have */
#define KRUNVEDO_TEXT 4096 /* bytes that an area for a text must have */
#define KRUNVEDO_FIRINGS 64 /* transitions that a list may have */

/* Bytes that are only read. */
typedef struct {
  const uint8_t *data;
  size_t length;
} krunvedo_bytes;

/* The work areas that judging borrows. After an answer that is not a refusal their first 20,000 entries are zero and the rest are
 * untouched; a refusal changes nothing. */
typedef struct {
  uint8_t *data;
  size_t length;
} krunvedo_marks;

typedef struct {
  uint16_t *data;
  size_t length;
} krunvedo_queue;

/* Document 01, "Numbers that say no"; and 18 for a sheet with a claim whose coefficients are all 0, with the first byte of that
 * claim's record. Where nothing is refused both are 0. Where something is, all else in the answer is 0, but for a list's position. */
typedef struct {
  uint8_t number;
  size_t detail;
} krunvedo_refused;

/* The counts of a sheet. */
typedef struct {
  krunvedo_refused refusal;
  size_t places;
  size_t transitions;
  size_t claims;
} krunvedo_counted;

krunvedo_counted krunvedo_read(krunvedo_bytes sheet);

/* The weights that transition t takes and puts. */
typedef struct {
  krunvedo_refused refusal;
  uint8_t taken[KRUNVEDO_PLACES];
  uint8_t put[KRUNVEDO_PLACES];
} krunvedo_weighted;

krunvedo_weighted krunvedo_weights(krunvedo_bytes sheet, size_t t);

/* The sheet's start. */
typedef struct {
  krunvedo_refused refusal;
  uint16_t tokens[KRUNVEDO_PLACES];
} krunvedo_tokens;

krunvedo_tokens krunvedo_start(krunvedo_bytes sheet);

/* The sheet's target. */
#define KRUNVEDO_EXACT 0       /* this marking */
#define KRUNVEDO_AT_OR_ABOVE 1 /* every marking at or above it in each place */

typedef struct {
  krunvedo_refused refusal;
  uint8_t kind;
  uint16_t tokens[KRUNVEDO_PLACES];
} krunvedo_aim;

krunvedo_aim krunvedo_target(krunvedo_bytes sheet);

/* The half space of claim i, and its reduced form. Where neither is refused, some coefficient is other than 0. */
typedef struct {
  krunvedo_refused refusal;
  int8_t coefficients[KRUNVEDO_PLACES];
  int16_t constant;
} krunvedo_space;

krunvedo_space krunvedo_half_space(krunvedo_bytes sheet, size_t i);
krunvedo_space krunvedo_reduced(krunvedo_bytes sheet, size_t i);

/* Whether claim i's record can be had; and where it stands in the sheet, its mark included. */
typedef struct {
  krunvedo_refused refusal;
  size_t offset;
  size_t length;
} krunvedo_record;

krunvedo_refused krunvedo_claim_check(krunvedo_bytes sheet, size_t i);
krunvedo_record krunvedo_claim_record(krunvedo_bytes sheet, size_t i);

/* Does transition t keep claim i? Start and target play no part. The marking is a bad one where t breaks it. */
#define KRUNVEDO_PAIR_REFUSED 0
#define KRUNVEDO_PAIR_KEPT 1
#define KRUNVEDO_PAIR_BROKEN 2

typedef struct {
  krunvedo_refused refusal;
  uint8_t answer;
  uint16_t marking[KRUNVEDO_PLACES];
} krunvedo_paired;

krunvedo_paired krunvedo_pair(krunvedo_bytes sheet, size_t i, krunvedo_marks marks, krunvedo_queue queue, size_t t);

/* The verdict on claim i: refused, or the first of the four others that holds. A broken claim has the lowest transition that breaks
 * it, and a bad marking. */
#define KRUNVEDO_CLAIM_REFUSED 0
#define KRUNVEDO_CLAIM_START_OUTSIDE 1
#define KRUNVEDO_CLAIM_TARGET_INSIDE 2
#define KRUNVEDO_CLAIM_BROKEN 3
#define KRUNVEDO_CLAIM_PROOF 4

typedef struct {
  krunvedo_refused refusal;
  uint8_t answer;
  size_t transition;
  uint16_t marking[KRUNVEDO_PLACES];
} krunvedo_judged;

krunvedo_judged krunvedo_verdict(krunvedo_bytes sheet, size_t i, krunvedo_marks marks, krunvedo_queue queue);

/* The lowest claim before claim i that is its twin; 0 where there is none. */
typedef struct {
  krunvedo_refused refusal;
  size_t claim;
} krunvedo_twinned;

krunvedo_twinned krunvedo_twin(krunvedo_bytes sheet, size_t i);

/* An area that a text is written into, from its first byte. The bytes behind the text are untouched, and none is put there to end it.
 * A refusal changes nothing. */
typedef struct {
  uint8_t *data;
  size_t length;
} krunvedo_text;

/* Number 0, and value is the text's length; or a refusal's number, and value is its detail. */
typedef struct {
  uint8_t number;
  size_t value;
} krunvedo_written;

/* The listing of a sheet. After the sheet's own refusals come 13 for a work area that is too short, and 19 for the text's. */
krunvedo_written krunvedo_listing(krunvedo_bytes sheet, krunvedo_marks marks, krunvedo_queue queue, krunvedo_text text);

/* The line that says in words that a call was refused with this number and this detail. Only 19 is refused. */
krunvedo_written krunvedo_refusal_text(uint8_t number, size_t detail, krunvedo_text text);

/* The marking that a walk begins at, and a step of a walk by transition t. A step moves the sixteen tokens on; it neither reads nor
 * alters those beyond the sheet's places, and a refused one changes none. tokens points to sixteen numbers, aligned as uint16_t, that
 * nothing else touches during the call. */
krunvedo_tokens krunvedo_begin(krunvedo_bytes sheet);
krunvedo_refused krunvedo_step(uint16_t *tokens, krunvedo_bytes sheet, size_t t);

/* Transition numbers that are only read. */
typedef struct {
  const size_t *data;
  size_t length;
} krunvedo_list;

/* The position of the step that is refused, counted from 1; 0 where no step is. */
typedef struct {
  krunvedo_refused refusal;
  size_t position;
} krunvedo_fired;

/* Fires the transitions of a list one after the other, as single steps would. Where one is refused, the refusal is that step's own, and
 * the tokens are those before the call. After the sheet's own refusals comes 17, with its length, for a list longer than 64; no step is
 * tried then. An empty list tries none, and changes nothing. */
krunvedo_fired krunvedo_fire_list(uint16_t *tokens, krunvedo_bytes sheet, krunvedo_list list);

#ifdef __cplusplus
}
#endif

#endif
