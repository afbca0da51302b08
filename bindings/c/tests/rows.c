/* Runs the rows of the conformance suite (crates/interpolator_vectors/ROWS.md) by the C library: each format by
 * interpolator_format and by interpolator_write, in rooms of every size up to the text's; with its context
 * as a sample by interpolator_check, interpolator_faults and interpolator_explain; by itself; and its
 * arguments. */
#include "interpolator.h"
#include <math.h>
#include <stdio.h>
#include <stdlib.h>

/* Its code is 0 without a fault, and -1 if that is not in the row. */
typedef struct {
  int code;
  uint32_t detail;
  size_t place;
} fault;

typedef struct {
  const char *name;
  interpolator_bytes format;
  const interpolator_field *fields;
  size_t field_count;
  const interpolator_field *items;
  size_t item_count;
  int has_text;
  interpolator_bytes text;
  fault written, sample, check;
  int fault_count;    /* with the context as a sample; -1 if it is not in the row */
  long bytes;         /* the writer takes so many; -1 for any number */
  int argument_count; /* -1 if they are not checked */
  size_t name_places[64];
} row;

#include "rows.h"

#define UNTOUCHED 0x5A
static char room[1 << 20], sentence[1 << 12];
static unsigned long checks, failures;

static void want(const row *of, const char *what, int holds) {
  checks++;
  if (holds) return;
  failures++;
  printf("FAILED %s: %s\n", of->name, what);
}

/* Whether a call returned this fault, or that there is none. */
static int is(interpolator_answer got, const fault *of) {
  return (int)got.code == of->code && got.detail == of->detail && got.place == of->place;
}

static interpolator_answer formatted(const row *of, size_t size) {
  memset(room, UNTOUCHED, sizeof room);
  return interpolator_format(of->format.at, of->format.length, of->fields, of->field_count, of->items,
                             of->item_count, room, size);
}

static interpolator_answer written(const row *of, size_t size) {
  memset(room, UNTOUCHED, size + 16);
  return interpolator_write(of->format.at, of->format.length, of->fields, of->field_count, of->items,
                            of->item_count, room, size, sentence, sizeof sentence);
}

static int untouched_from(size_t from, size_t to) {
  for (; from < to; from++)
    if (room[from] != UNTOUCHED) return 0;
  return 1;
}

/* In a room of each size the text's whole, or a beginning, and nothing behind the room. */
static void in_every_room(const row *of) {
  size_t size, most = of->text.length < 300 ? of->text.length : 300;
  for (size = 0; size <= most; size++) {
    interpolator_answer got = written(of, size);
    want(of, "a beginning", got.length <= size && memcmp(room, of->text.at, got.length) == 0);
    want(of, "nothing behind it", untouched_from(got.length, size + 16));
    if (of->written.code == 0 && size < of->text.length)
      want(of, "told as full", got.code == INTERPOLATOR_FULL || got.code == INTERPOLATOR_NO_MEMORY);
    if (of->written.code != 0 || size == of->text.length || size % 16 != 0) continue;
    got = formatted(of, size);
    want(of, "as it was", got.code == 0 && got.length == of->text.length && untouched_from(0, size + 16));
  }
}

static void whole(const row *of) {
  interpolator_answer got = formatted(of, sizeof room);
  want(of, "the fault of format", is(got, &of->written));
  if (of->written.code == 0) {
    want(of, "text of format",
         got.length == of->text.length && memcmp(room, of->text.at, got.length) == 0);
    want(of, "nothing behind the text", untouched_from(got.length, got.length + 64));
  } else {
    want(of, "a sentence", got.message > 0 && got.length == 0);
    want(of, "nothing behind the sentence", untouched_from(got.message, got.message + 64));
  }
  got = written(of, sizeof room - 16);
  want(of, "the fault of write", is(got, &of->written));
  want(of, "text of write", got.length == of->text.length && memcmp(room, of->text.at, got.length) == 0);
  in_every_room(of);
}

/* The writer takes so many bytes, as a room of them does. */
static void within(const row *of) {
  interpolator_answer got = written(of, (size_t)of->bytes);
  if (of->written.code == INTERPOLATOR_FMT && got.code == INTERPOLATOR_FULL) got.code = INTERPOLATOR_FMT;
  want(of, "the fault in a room",
       is(got, &of->written) || (got.code == INTERPOLATOR_NO_MEMORY && of->written.code == (int)got.code));
  want(of, "text in a room", got.length == of->text.length && memcmp(room, of->text.at, got.length) == 0);
}

static void checked(const row *of) {
  static interpolator_fault faults[64];
  interpolator_source source = interpolator_whole("f", 1, of->format.at, of->format.length);
  size_t k;
  interpolator_answer got = interpolator_check(of->format.at, of->format.length, of->fields,
                                               of->field_count, of->items, of->item_count, room, sizeof room);
  interpolator_answer all = interpolator_faults(of->format.at, of->format.length, of->fields,
                                                of->field_count, of->items, of->item_count, faults, 64);
  want(of, "sample", is(got, &of->sample));
  want(of, "how many faults", all.code == 0 && (of->fault_count < 0 || all.length == (size_t)of->fault_count));
  for (k = 0; k <= all.length && k < 64; k++) {
    got = interpolator_explain(&source, of->format.at, of->format.length, of->fields, of->field_count,
                               of->items, of->item_count, k, room, sizeof room);
    if (k == 0) want(of, "the first is explained", is(got, &of->sample));
    if (k == all.length) want(of, "no more faults", got.code == 0 && got.message == 0);
    else want(of, "explained", got.code == faults[k].code && got.detail == faults[k].detail
                                   && got.place == faults[k].place && memcmp(room, "f:", 2) == 0);
  }
}

static void alone(const row *of) {
  want(of, "by itself", is(interpolator_check_alone(of->format.at, of->format.length, room, sizeof room), &of->check));
}

static void arguments(const row *of) {
  static interpolator_argument of_format[64];
  int k;
  interpolator_answer got =
      interpolator_arguments(of->format.at, of->format.length, of_format, 64);
  want(of, "arguments", got.code == 0 && (int)got.length == of->argument_count);
  for (k = 0; k < of->argument_count && k < 64; k++)
    want(of, "place of a name", of_format[k].name_first == of->name_places[k]);
}

int main(void) {
  size_t k, count = sizeof rows / sizeof *rows;
  for (k = 0; k < count; k++) {
    const row *of = &rows[k];
    if (of->has_text && of->bytes < 0) whole(of);
    if (of->has_text && of->bytes >= 0) within(of);
    if (of->sample.code >= 0) checked(of);
    if (of->check.code >= 0) alone(of);
    if (of->argument_count >= 0) arguments(of);
  }
  printf("rows: %lu rows, %lu checks, %lu failed\n", (unsigned long)count, checks, failures);
  return failures != 0 || count < 500;
}
