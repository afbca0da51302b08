/* interpolator_pictures.h: all faults of a format, as a compiler shows them, in time linear in them.
 *
 * interpolator_explain reads the whole format for each fault. This is C over the calls of
 * interpolator.h, tested and not proved: each fault is explained by a piece of the format, which is an
 * argument with what follows it, and by a part of its line. Where a piece shows another fault,
 * interpolator_explain shows this one by the whole format. (The faults of one list count as those of
 * one argument: each of them reads the whole list.) */
#ifndef INTERPOLATOR_PICTURES_H
#define INTERPOLATOR_PICTURES_H
#include "interpolator.h"
#include <stdio.h>
#ifdef __cplusplus
extern "C" {
#endif

/* Takes a fault and its picture, which has no newline at its end and is there until it returns. 0 means
 * that it wants the next one. */
typedef int interpolator_show(
    void *with, const interpolator_fault *fault, const char *picture, size_t length);

/* How many bytes of a line are read on each side of a piece: more than the 120 characters that a
 * picture shows. */
enum { INTERPOLATOR_AROUND = 512 };

/* ---- What is read, for the functions below */

typedef struct {
  char *at;
  size_t size;
} interpolator_room;

/* A format with its examples, and where it is. */
typedef struct {
  const interpolator_source *source;
  const char *format;
  size_t format_length;
  const interpolator_field *fields;
  size_t field_count;
  const interpolator_field *items;
  size_t item_count;
} interpolator_located;

/* A piece of a format, from `first` up to `end`, which begins at the byte `at` of the text, in the
 * line of this number, which begins at `line`, after `column` characters. */
typedef struct {
  size_t first, end, at, line, number, column;
} interpolator_piece;

/* Makes a room at least so large; 0 if there is no memory. What it has is lost. */
static inline int interpolator_enlarge(interpolator_room *room, size_t size) {
  rattle_block block;
  if (size <= room->size) return 1;
  if (room->at) rattle_dealloc(room->at);
  block = rattle_alloc(size, 16);
  room->at = block.ok ? (char *)block.at : NULL;
  room->size = block.ok ? size : 0;
  return block.ok != 0;
}

static inline void interpolator_release(interpolator_room *room) {
  if (room->at) rattle_dealloc(room->at);
  room->at = NULL;
  room->size = 0;
}

static inline interpolator_answer interpolator_code_alone(uint32_t code) {
  interpolator_answer answer;
  memset(&answer, 0, sizeof answer);
  answer.code = code;
  return answer;
}

/* How many characters begin in these bytes. */
static inline size_t interpolator_characters(const char *at, size_t length) {
  size_t count = 0;
  for (; length; length--) count += (*at++ & 0xC0) != 0x80;
  return count;
}

/* The place, or the first before it at which a character begins. */
static inline size_t interpolator_boundary(interpolator_bytes text, size_t place) {
  while (place > 0 && place < text.length && (text.at[place] & 0xC0) == 0x80) place--;
  return place;
}

/* interpolator_explain with a room that is enlarged for the picture. */
static inline interpolator_answer interpolator_explain_into(
    const interpolator_located *of, size_t which, interpolator_room *room) {
  for (;;) {
    interpolator_answer got =
        interpolator_explain(of->source, of->format, of->format_length, of->fields, of->field_count,
                             of->items, of->item_count, which, room->at, room->size);
    if (got.message <= room->size) return got;
    if (!interpolator_enlarge(room, got.message))
      return interpolator_code_alone(INTERPOLATOR_NO_MEMORY);
  }
}

/* The piece after one: it begins at the first argument from `*next` on that is in no other's group, and
 * ends where the one after that begins. */
static inline interpolator_piece interpolator_next_piece(
    const interpolator_located *of, const interpolator_argument *arguments, size_t count,
    size_t *next, interpolator_piece last) {
  interpolator_piece piece = last;
  const char *text = of->source->text.at;
  size_t inside = 0, k;
  piece.first = last.end;
  piece.end = of->format_length;
  for (; *next < count; ++*next) {
    const interpolator_argument *one = arguments + *next;
    size_t first = one->name_first;
    if (one->name_first < inside) continue;
    /* between the brace and the name there is at most white space */
    while (of->format[--first] != '{') continue;
    if (first > piece.first) {
      piece.end = first;
      break;
    }
    inside = one->name_end > one->item_end ? one->name_end : one->item_end;
    if (one->join_end > inside) inside = one->join_end;
  }
  piece.at = of->source->start + piece.first;
  for (k = last.at; k < piece.at; k++) {
    piece.column += (text[k] & 0xC0) != 0x80;
    if (text[k] != '\n') continue;
    piece.line = k + 1;
    piece.number++;
    piece.column = 0;
  }
  return piece;
}

/* The text around a piece: its line from at most so many bytes before it, and what follows it up to
 * the line's end, or so many bytes. */
static inline interpolator_source interpolator_around(
    const interpolator_source *whole, const interpolator_piece *piece) {
  interpolator_source part = *whole;
  size_t from = piece->line, end = whole->start + piece->end, until = whole->text.length;
  const char *newline;
  if (piece->at - from > INTERPOLATOR_AROUND)
    from = interpolator_boundary(whole->text, piece->at - INTERPOLATOR_AROUND);
  if (until - end > INTERPOLATOR_AROUND)
    until = interpolator_boundary(whole->text, end + INTERPOLATOR_AROUND);
  newline = (const char *)(until > end ? memchr(whole->text.at + end, '\n', until - end) : NULL);
  if (newline) until = (size_t)(newline - whole->text.at) + 1;
  part.text = interpolator_span(whole->text.at + from, until - from);
  part.first_line = piece->number;
  part.start = piece->at - from;
  return part;
}

/* Where the last of these texts begins in some bytes; `length` if it is not there. */
static inline size_t interpolator_last(const char *at, size_t length, const char *text) {
  size_t size = strlen(text), k;
  for (k = length < size ? 0 : length - size + 1; k > 0; k--)
    if (memcmp(at + k - 1, text, size) == 0) return k - 1;
  return length;
}

/* The picture of a fault of the whole format, by that of its piece: with the place in the whole format,
 * and the column in the whole line. Returns its length; 0 if the picture is not as expected. */
static inline size_t interpolator_retold(
    const interpolator_source *whole, const interpolator_source *part,
    const interpolator_piece *piece, size_t place, const char *picture, size_t length,
    interpolator_room *told) {
  char here[64];
  size_t left_out = piece->column - interpolator_characters(part->text.at, part->start);
  size_t at = part->name.length + 1, line = 0, column = 0, marks = length, lines, number, end, put;
  for (; at < length && picture[at] != ':'; at++) line = line * 10 + (size_t)(picture[at] - '0');
  for (at++; at < length && picture[at] != ':'; at++)
    column = column * 10 + (size_t)(picture[at] - '0');
  if (line == piece->number) column += left_out;
  /* the line and its marks are the last three lines */
  for (lines = 0; lines < 3 && marks > at; lines++)
    marks = interpolator_last(picture, marks, "\n");
  at += 2;
  if (marks <= at) return 0;
  /* the sentence, without the note that the format does not begin its text */
  end = marks;
  if (part->start) {
    snprintf(here, sizeof here, " (byte %lu of the format)", (unsigned long)place);
    if (interpolator_last(picture + at, end - at, here) + strlen(here) != end - at) return 0;
    end -= strlen(here);
  }
  /* each sentence says the place once, after all that it tells of the format */
  snprintf(here, sizeof here, " at %lu", (unsigned long)place);
  number = interpolator_last(picture + at, end - at, here);
  if (number == end - at) return 0;
  if (!interpolator_enlarge(told, length + 160)) return 0;
  put = part->name.length;
  memcpy(told->at, part->name.at, put);
  put += (size_t)sprintf(told->at + put, ":%lu:%lu: ", (unsigned long)line, (unsigned long)column);
  memcpy(told->at + put, picture + at, number);
  put += number;
  put += (size_t)sprintf(told->at + put, " at %lu", (unsigned long)(piece->first + place));
  number += at + strlen(here);
  memcpy(told->at + put, picture + number, end - number);
  put += end - number;
  if (whole->start)
    put += (size_t)sprintf(told->at + put, " (byte %lu of the format)",
                           (unsigned long)(piece->first + place));
  memcpy(told->at + put, picture + marks, length - marks);
  return put + length - marks;
}

/* Shows a fault by its piece, of which it is the one of this number; 0 if the piece shows another. */
static inline size_t interpolator_by_piece(
    const interpolator_located *of, const interpolator_piece *piece, size_t which,
    const interpolator_fault *fault, interpolator_room *room, interpolator_room *told) {
  interpolator_source part = interpolator_around(of->source, piece);
  interpolator_located in = *of;
  interpolator_answer got;
  in.source = &part;
  in.format = of->format + piece->first;
  in.format_length = piece->end - piece->first;
  got = interpolator_explain_into(&in, which, room);
  if (got.code != fault->code || got.detail != fault->detail
      || piece->first + got.place != fault->place)
    return 0;
  return interpolator_retold(of->source, &part, piece, got.place, room->at, got.message, told);
}

/* Shows the faults, of which there are so many, by the arguments of the format. */
static inline interpolator_answer interpolator_show_all(
    const interpolator_located *of, const interpolator_fault *faults, size_t count,
    const interpolator_argument *arguments, size_t argument_count, interpolator_show *show,
    void *with) {
  interpolator_room room = {NULL, 0}, told = {NULL, 0};
  interpolator_piece piece = {0, 0, 0, 0, 0, 0};
  interpolator_answer got = interpolator_code_alone(INTERPOLATOR_OK);
  size_t next = 0, done, before = 0;
  const interpolator_source *source = of->source;
  /* whether the format is where its source says, and lines can be counted */
  int has_pieces = source->start <= source->text.length
                   && of->format_length <= source->text.length - source->start
                   && memcmp(source->text.at + source->start, of->format, of->format_length) == 0
                   && source->first_line < SIZE_MAX / 2;
  piece.number = source->first_line;
  for (done = 0; done < count; done++) {
    size_t length = 0;
    while (has_pieces && piece.end < of->format_length && faults[done].place >= piece.end) {
      piece = interpolator_next_piece(of, arguments, argument_count, &next, piece);
      before = done;
    }
    /* the first by the whole format, whose text may not be UTF-8 */
    if (has_pieces && done)
      length = interpolator_by_piece(of, &piece, done - before, faults + done, &room, &told);
    if (length) {
      if (show(with, faults + done, told.at, length)) break;
      continue;
    }
    got = interpolator_explain_into(of, done, &room);
    if (got.code != faults[done].code) break;
    if (show(with, faults + done, room.at, got.message)) break;
  }
  interpolator_release(&room);
  interpolator_release(&told);
  if (done < count && got.code > INTERPOLATOR_UNSUPPORTED) return interpolator_code_alone(got.code);
  got = interpolator_code_alone(INTERPOLATOR_OK);
  got.length = count;
  return got;
}

/* All faults that interpolator_faults finds, in order, each with the picture of interpolator_explain,
 * as long as `show` returns 0.
 *
 * OK: `length` is how many there are.
 * NO_MEMORY, LISTS, and NOT_UTF8 of the format, or the name or text of the source: all other fields
 * are 0; of NO_MEMORY the first faults may have been shown. */
static inline interpolator_answer interpolator_explain_all(
    const interpolator_source *source,
    const char *format, size_t format_length,
    const interpolator_field *fields, size_t field_count,
    const interpolator_field *items, size_t item_count,
    interpolator_show *show, void *with) {
  interpolator_located of;
  interpolator_room faults = {NULL, 0}, arguments = {NULL, 0};
  interpolator_answer got, asked;
  of.source = source;
  of.format = format;
  of.format_length = format_length;
  of.fields = fields;
  of.field_count = field_count;
  of.items = items;
  of.item_count = item_count;
  got = interpolator_faults(format, format_length, fields, field_count, items, item_count, NULL, 0);
  if (got.code != INTERPOLATOR_OK || got.length == 0) return got;
  asked = interpolator_arguments(format, format_length, NULL, 0);
  if (asked.code == INTERPOLATOR_OK
      && interpolator_enlarge(&faults, got.length * sizeof(interpolator_fault))
      && interpolator_enlarge(&arguments, (asked.length + 1) * sizeof(interpolator_argument))) {
    interpolator_fault *found = (interpolator_fault *)(void *)faults.at;
    interpolator_argument *parts = (interpolator_argument *)(void *)arguments.at;
    got = interpolator_faults(format, format_length, fields, field_count, items, item_count, found,
                              got.length);
    if (got.code == INTERPOLATOR_OK)
      asked = interpolator_arguments(format, format_length, parts, asked.length);
    if (got.code == INTERPOLATOR_OK && asked.code == INTERPOLATOR_OK)
      got = interpolator_show_all(&of, found, got.length, parts, asked.length, show, with);
  } else if (asked.code == INTERPOLATOR_OK) {
    got = interpolator_code_alone(INTERPOLATOR_NO_MEMORY);
  }
  interpolator_release(&faults);
  interpolator_release(&arguments);
  return asked.code == INTERPOLATOR_OK ? got : asked;
}

#ifdef __cplusplus
}
#endif
#endif
