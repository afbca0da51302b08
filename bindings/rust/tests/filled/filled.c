/* The calls of interpolator.h over those of the library, which begin with `plain_` here: of what a
 * call returns and writes, a caller gets what the header says, and all else is 0xAA, and undefined
 * for valgrind. So a caller that relies on more differs, or valgrind reports it.
 *
 * Before a call the header says nothing of the answer, and of the bytes that the call is to write.
 * So the answer is filled, and the library gets rooms of its own, filled, of which the caller gets
 * the bytes that the header says are written: one that the library leaves out is 0xAA.
 *
 * After a call the header leaves nothing open: "Of each code it is said what each field is, what
 * each room holds, and that the rest is as it was." The contracts have it so (specs/ of
 * crates/interpolator_border): the answer equals a record of all its fields, and `Reported`, `Put` and
 * `FillsFront` say of each byte of a room or an array what it is. No struct that a call writes has
 * padding. So nothing of an answer is filled, and the rest of a room is as it was.
 *
 * The environment variable FILL_UNNAMED fills more than the header leaves open: all that src/sys.rs
 * does not name as what it relies on. These are the fields that are 0 by the code, and what the
 * header says is as it was: the rest of each room and array, and all of a room if its text does not
 * fit. */
#include "interpolator.h"
#include <stdio.h>
#include <stdlib.h>
#include <valgrind/memcheck.h>

enum { FILL = 0xAA };

/* ---- Structs without padding */

typedef char answer_is_full
    [sizeof(interpolator_answer) == 2 * sizeof(uint32_t) + 4 * sizeof(size_t) ? 1 : -1];
typedef char cost_answer_is_full
    [sizeof(interpolator_cost_answer) == 2 * sizeof(uint32_t) + 3 * sizeof(size_t) ? 1 : -1];
typedef char fault_is_full
    [sizeof(interpolator_fault) == 2 * sizeof(uint32_t) + sizeof(size_t) ? 1 : -1];
typedef char argument_is_full
    [sizeof(interpolator_argument) == 8 * sizeof(uint32_t) + 8 * sizeof(size_t) ? 1 : -1];

/* ---- The calls of the library
 *
 * An answer of more than 16 bytes is returned where a hidden first parameter points (System V ABI).
 * Here that parameter is declared, so that the answer can be filled before the call. */

void plain_interpolator_format(
    interpolator_answer *answer, const char *format, size_t format_length,
    const interpolator_field *fields, size_t field_count, const interpolator_field *items,
    size_t item_count, char *room, size_t room_length);
void plain_interpolator_escaped(
    interpolator_answer *answer, uint32_t escape, const char *format, size_t format_length,
    const interpolator_field *fields, size_t field_count, const interpolator_field *items,
    size_t item_count, char *room, size_t room_length);
void plain_interpolator_write(
    interpolator_answer *answer, const char *format, size_t format_length,
    const interpolator_field *fields, size_t field_count, const interpolator_field *items,
    size_t item_count, char *room, size_t room_length, char *sentence, size_t sentence_length);
void plain_interpolator_check(
    interpolator_answer *answer, const char *format, size_t format_length,
    const interpolator_field *fields, size_t field_count, const interpolator_field *items,
    size_t item_count, char *room, size_t room_length);
void plain_interpolator_check_alone(
    interpolator_answer *answer, const char *format, size_t format_length, char *room,
    size_t room_length);
void plain_interpolator_faults(
    interpolator_answer *answer, const char *format, size_t format_length,
    const interpolator_field *fields, size_t field_count, const interpolator_field *items,
    size_t item_count, interpolator_fault *faults, size_t fault_count);
void plain_interpolator_explain(
    interpolator_answer *answer, const interpolator_source *source, const char *format,
    size_t format_length, const interpolator_field *fields, size_t field_count,
    const interpolator_field *items, size_t item_count, size_t which, char *room,
    size_t room_length);
void plain_interpolator_rows(
    interpolator_answer *answer, const char *format, size_t format_length,
    const interpolator_field *columns, size_t column_count, const interpolator_field *cells,
    size_t cell_count, size_t *ends, size_t row_count, char *room, size_t room_length);
void plain_interpolator_cost(
    interpolator_cost_answer *answer, const char *format, size_t format_length, size_t text,
    size_t items);
void plain_interpolator_arguments(
    interpolator_answer *answer, const char *format, size_t format_length,
    interpolator_argument *arguments, size_t argument_count);

/* ---- What the caller owes: what it lends holds something, and its rooms are there */

static void reads(const void *at, size_t length) {
  (void)VALGRIND_CHECK_MEM_IS_DEFINED(at, length);
}

static void reads_lent(const interpolator_lent *lent, size_t count) {
  size_t k;
  reads(lent, count * sizeof *lent);
  for (k = 0; k < count; k++) reads(lent[k].text.at, lent[k].text.length);
}

static void reads_fields(const interpolator_field *fields, size_t count) {
  size_t k;
  reads(fields, count * sizeof *fields);
  for (k = 0; k < count; k++) {
    reads(fields[k].name.at, fields[k].name.length);
    reads(fields[k].text.at, fields[k].text.length);
    reads_lent(fields[k].lent, fields[k].lent_count);
  }
}

static void reads_row(
    const char *format, size_t format_length, const interpolator_field *fields, size_t field_count,
    const interpolator_field *items, size_t item_count) {
  reads(format, format_length);
  reads_fields(fields, field_count);
  reads_fields(items, item_count);
}

static void reads_source(const interpolator_source *source) {
  reads(source, sizeof *source);
  reads(source->name.at, source->name.length);
  reads(source->text.at, source->text.length);
}

/* ---- Filling */

/* Bytes that hold nothing from now on. */
static void forget(void *at, size_t length) {
  if (length == 0) return;
  memset(at, FILL, length);
  (void)VALGRIND_MAKE_MEM_UNDEFINED(at, length);
}

static int fills_unnamed(void) { return getenv("FILL_UNNAMED") != NULL; }

/* Ends the program, since the library has not kept to the header. */
static void broken(const char *what) {
  fprintf(stderr, "filled: %s\n", what);
  abort();
}

/* As much memory as the caller's, which holds nothing. */
static void *room_like(void *room, size_t length) {
  void *own;
  if (length == 0) return room;
  (void)VALGRIND_CHECK_MEM_IS_ADDRESSABLE(room, length);
  own = malloc(length);
  if (own == NULL) broken("out of memory");
  forget(own, length);
  return own;
}

/* Gives the caller the first bytes of such memory, which are written. By the header the rest of the
 * caller's is as it was. */
static void hand_on(void *room, void *own, size_t written, size_t length) {
  if (written > length) broken("more is written than there is room for");
  if (length == 0) return;
  memcpy(room, own, written);
  free(own);
  if (fills_unnamed()) forget((char *)room + written, length - written);
}

/* How much of a text is written: it lies in a room if it fits. */
static size_t if_it_fits(size_t text, size_t length) { return text <= length ? text : 0; }

/* How much of an array is written: it begins with as many as it has places for. */
static size_t at_most(size_t count, size_t places) { return count < places ? count : places; }

/* ---- Codes, and fields that say something beside them */

enum {
  WELL = 1 << INTERPOLATOR_OK,
  BROKEN = 1 << INTERPOLATOR_PARSE | 1 << INTERPOLATOR_UNSUPPORTED,
  FAULT = BROKEN | 1 << INTERPOLATOR_MISSING_TRAIT | 1 << INTERPOLATOR_FMT
        | 1 << INTERPOLATOR_MISSING_VALUE,
  NO_MEMORY = 1 << INTERPOLATOR_NO_MEMORY,
  NOT_UTF8 = 1 << INTERPOLATOR_NOT_UTF8,
  LISTS = 1 << INTERPOLATOR_LISTS,
  FULL = 1 << INTERPOLATOR_FULL,
  TABLE = 1 << INTERPOLATOR_TABLE,
  MISPLACED = 1 << INTERPOLATOR_MISPLACED,
  NO_ESCAPE = 1 << INTERPOLATOR_NO_ESCAPE
};

/* Ends the program unless the header has the code for the call. */
static void is_one_of(uint32_t code, int codes) {
  if (code > INTERPOLATOR_NO_ESCAPE || !(codes >> code & 1)) broken("the call has no such code");
}

enum { DETAIL = 1, PLACE = 2, LENGTH = 4, MESSAGE = 8, ROW = 16 };

/* The fields of an answer that say something by its code, to which a call may add. All others are
 * 0. */
static int said_by(uint32_t code) {
  switch (code) {
    case INTERPOLATOR_OK: return LENGTH;
    case INTERPOLATOR_MISSING_TRAIT:
    case INTERPOLATOR_PARSE:
    case INTERPOLATOR_MISPLACED: return DETAIL | PLACE | MESSAGE;
    case INTERPOLATOR_FMT:
    case INTERPOLATOR_MISSING_VALUE:
    case INTERPOLATOR_UNSUPPORTED:
    case INTERPOLATOR_FULL: return PLACE | MESSAGE;
    default: return MESSAGE;
  }
}

/* The answer as the caller gets it: whole, since the header says of each code what each field is;
 * or these fields alone, on which sys.rs relies. */
static interpolator_answer handed(interpolator_answer answer, int named) {
  if (!fills_unnamed()) return answer;
  if (!(named & DETAIL)) forget(&answer.detail, sizeof answer.detail);
  if (!(named & PLACE)) forget(&answer.place, sizeof answer.place);
  if (!(named & LENGTH)) forget(&answer.length, sizeof answer.length);
  if (!(named & MESSAGE)) forget(&answer.message, sizeof answer.message);
  if (!(named & ROW)) forget(&answer.row, sizeof answer.row);
  return answer;
}

/* ---- The calls */

/* The room has the text of OK (`ReportedText`), and the sentence of any other code (`ReportedAlone`,
 * `ReportedAside`). */
interpolator_answer interpolator_format(
    const char *format, size_t format_length,
    const interpolator_field *fields, size_t field_count,
    const interpolator_field *items, size_t item_count,
    char *room, size_t room_length) {
  interpolator_answer answer;
  char *own = room_like(room, room_length);
  size_t put;
  reads_row(format, format_length, fields, field_count, items, item_count);
  forget(&answer, sizeof answer);
  plain_interpolator_format(&answer, format, format_length, fields, field_count, items, item_count,
                            own, room_length);
  is_one_of(answer.code, WELL | FAULT | NO_MEMORY | NOT_UTF8 | LISTS);
  put = answer.code == INTERPOLATOR_OK ? answer.length : answer.message;
  hand_on(room, own, if_it_fits(put, room_length), room_length);
  return handed(answer, said_by(answer.code));
}

/* The same, with the sentence of what is out of place (`ReportedMisplaced`), or that there is no such
 * escape. */
interpolator_answer interpolator_escaped(
    uint32_t escape,
    const char *format, size_t format_length,
    const interpolator_field *fields, size_t field_count,
    const interpolator_field *items, size_t item_count,
    char *room, size_t room_length) {
  interpolator_answer answer;
  char *own = room_like(room, room_length);
  size_t put;
  reads_row(format, format_length, fields, field_count, items, item_count);
  forget(&answer, sizeof answer);
  plain_interpolator_escaped(&answer, escape, format, format_length, fields, field_count, items,
                             item_count, own, room_length);
  is_one_of(answer.code, WELL | FAULT | NO_MEMORY | NOT_UTF8 | LISTS | MISPLACED | NO_ESCAPE);
  put = answer.code == INTERPOLATOR_OK ? answer.length : answer.message;
  hand_on(room, own, if_it_fits(put, room_length), room_length);
  return handed(answer, said_by(answer.code));
}

/* The room has `length` bytes, whatever the code is (`Put`), and the second room the sentence of
 * each code but OK (`ReportedBy`, `ReportedFault`, `ReportedAside`). */
interpolator_answer interpolator_write(
    const char *format, size_t format_length,
    const interpolator_field *fields, size_t field_count,
    const interpolator_field *items, size_t item_count,
    char *room, size_t room_length,
    char *sentence, size_t sentence_length) {
  interpolator_answer answer;
  char *own = room_like(room, room_length), *second = room_like(sentence, sentence_length);
  reads_row(format, format_length, fields, field_count, items, item_count);
  forget(&answer, sizeof answer);
  plain_interpolator_write(&answer, format, format_length, fields, field_count, items, item_count,
                           own, room_length, second, sentence_length);
  is_one_of(answer.code, WELL | FAULT | NO_MEMORY | NOT_UTF8 | LISTS | FULL);
  hand_on(room, own, answer.length, room_length);
  hand_on(sentence, second, if_it_fits(answer.message, sentence_length), sentence_length);
  return handed(answer, said_by(answer.code) | LENGTH);
}

/* The room is as it was of OK (`ReportedNone`), and has the sentence of any other code. `length` is 0
 * of each. */
interpolator_answer interpolator_check(
    const char *format, size_t format_length,
    const interpolator_field *fields, size_t field_count,
    const interpolator_field *items, size_t item_count,
    char *room, size_t room_length) {
  interpolator_answer answer;
  char *own = room_like(room, room_length);
  reads_row(format, format_length, fields, field_count, items, item_count);
  forget(&answer, sizeof answer);
  plain_interpolator_check(&answer, format, format_length, fields, field_count, items, item_count,
                           own, room_length);
  is_one_of(answer.code, WELL | FAULT | NO_MEMORY | NOT_UTF8 | LISTS);
  hand_on(room, own, if_it_fits(answer.message, room_length), room_length);
  return handed(answer, said_by(answer.code) & ~LENGTH);
}

/* The same. */
interpolator_answer interpolator_check_alone(
    const char *format, size_t format_length, char *room, size_t room_length) {
  interpolator_answer answer;
  char *own = room_like(room, room_length);
  reads(format, format_length);
  forget(&answer, sizeof answer);
  plain_interpolator_check_alone(&answer, format, format_length, own, room_length);
  is_one_of(answer.code, WELL | BROKEN | NO_MEMORY | NOT_UTF8);
  hand_on(room, own, if_it_fits(answer.message, room_length), room_length);
  return handed(answer, said_by(answer.code) & ~LENGTH);
}

/* The array of OK begins with as many of the faults as it has places for (`FillsFront`). Any other
 * code comes alone, with `length` 0, and leaves the array as it was (`CodedAside`). */
interpolator_answer interpolator_faults(
    const char *format, size_t format_length,
    const interpolator_field *fields, size_t field_count,
    const interpolator_field *items, size_t item_count,
    interpolator_fault *faults, size_t fault_count) {
  interpolator_answer answer;
  size_t length = fault_count * sizeof *faults;
  interpolator_fault *own = room_like(faults, length);
  reads_row(format, format_length, fields, field_count, items, item_count);
  forget(&answer, sizeof answer);
  plain_interpolator_faults(&answer, format, format_length, fields, field_count, items, item_count,
                            own, fault_count);
  is_one_of(answer.code, WELL | NO_MEMORY | NOT_UTF8 | LISTS);
  hand_on(faults, own, at_most(answer.length, fault_count) * sizeof *faults, length);
  return handed(answer, LENGTH);
}

/* The room is as it was of OK (`ReportedNone`, with `message` 0), has the picture of a fault
 * (`ReportedPicture`), and the sentence of any other code. */
interpolator_answer interpolator_explain(
    const interpolator_source *source,
    const char *format, size_t format_length,
    const interpolator_field *fields, size_t field_count,
    const interpolator_field *items, size_t item_count,
    size_t which,
    char *room, size_t room_length) {
  interpolator_answer answer;
  char *own = room_like(room, room_length);
  reads_source(source);
  reads_row(format, format_length, fields, field_count, items, item_count);
  forget(&answer, sizeof answer);
  plain_interpolator_explain(&answer, source, format, format_length, fields, field_count, items,
                             item_count, which, own, room_length);
  is_one_of(answer.code, WELL | FAULT | NO_MEMORY | NOT_UTF8 | LISTS);
  hand_on(room, own, if_it_fits(answer.message, room_length), room_length);
  return handed(answer, (said_by(answer.code) | MESSAGE) & ~LENGTH);
}

/* The room has the texts of OK, and the sentence of any other code. Of OK each end is written
 * (`AllRows`), and else those of the `row` rows before (`StopsInRow`), which are 0 where no row is
 * written (`TellsNoRow`). */
interpolator_answer interpolator_rows(
    const char *format, size_t format_length,
    const interpolator_field *columns, size_t column_count,
    const interpolator_field *cells, size_t cell_count,
    size_t *ends, size_t row_count,
    char *room, size_t room_length) {
  interpolator_answer answer;
  char *own = room_like(room, room_length);
  size_t *own_ends = room_like(ends, row_count * sizeof *ends);
  size_t put, ended;
  int is_ok;
  reads_row(format, format_length, columns, column_count, cells, cell_count);
  forget(&answer, sizeof answer);
  plain_interpolator_rows(&answer, format, format_length, columns, column_count, cells, cell_count,
                          own_ends, row_count, own, room_length);
  is_one_of(answer.code, WELL | FAULT | NO_MEMORY | NOT_UTF8 | LISTS | TABLE);
  is_ok = answer.code == INTERPOLATOR_OK;
  put = is_ok ? answer.length : answer.message;
  ended = is_ok ? row_count : answer.row;
  hand_on(room, own, if_it_fits(put, room_length), room_length);
  hand_on(ends, own_ends, ended * sizeof *ends, row_count * sizeof *ends);
  return handed(answer, said_by(answer.code) | (is_ok ? 0 : ROW));
}

/* Of OK the counts say something (`cost_answer`); of any other code all fields beside it are 0
 * (`no_cost`). */
interpolator_cost_answer interpolator_cost(
    const char *format, size_t format_length, size_t text, size_t items) {
  interpolator_cost_answer answer;
  uint32_t code;
  reads(format, format_length);
  forget(&answer, sizeof answer);
  plain_interpolator_cost(&answer, format, format_length, text, items);
  code = answer.code;
  is_one_of(code, WELL | NO_MEMORY | NOT_UTF8);
  if (!fills_unnamed()) return answer;
  if (code != INTERPOLATOR_OK) forget(&answer, sizeof answer);
  forget(&answer.detail, sizeof answer.detail);
  answer.code = code;
  return answer;
}

/* The array of OK begins with as many of the arguments as it has places for (`FillsFront`). Any
 * other code comes alone, and leaves the array as it was. */
interpolator_answer interpolator_arguments(
    const char *format, size_t format_length,
    interpolator_argument *arguments, size_t argument_count) {
  interpolator_answer answer;
  size_t length = argument_count * sizeof *arguments;
  interpolator_argument *own = room_like(arguments, length);
  reads(format, format_length);
  forget(&answer, sizeof answer);
  plain_interpolator_arguments(&answer, format, format_length, own, argument_count);
  is_one_of(answer.code, WELL | NO_MEMORY | NOT_UTF8);
  hand_on(arguments, own, at_most(answer.length, argument_count) * sizeof *arguments, length);
  return handed(answer, answer.code == INTERPOLATOR_OK ? LENGTH : 0);
}
