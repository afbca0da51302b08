/* interpolator.h: format strings at run time, proved. For C99 and C++17.
 *
 * A format and named values go in; the text, or one fault at its byte, comes out. What the format
 * language is, and what each call is proved to do, stands in docs/DEFINITIONS.md and
 * docs/BINDINGS.md.
 *
 * Of every call:
 * - All lengths, places and ends count bytes. Texts are UTF-8 and are not terminated by a zero byte.
 * - The caller owns all memory that it passes. The library only reads what is behind a `const`, and
 *   keeps no pointer after a call returns.
 * - A room (what is not behind a `const`) may not overlap anything that the call reads, nor another
 *   room. A pointer may be null if its length is 0.
 * - Each call frees all the memory that it took. It takes it by rattle_alloc, rattle_realloc and
 *   rattle_dealloc (at the end of this header): those of the program if it defines them, else those
 *   of this library, which call malloc, realloc and free.
 * - The library has no state of its own: any number of threads may call it at the same time.
 */
#ifndef INTERPOLATOR_H
#define INTERPOLATOR_H
#include <stddef.h>
#include <stdint.h>
#include <string.h>
#ifdef __cplusplus
extern "C" {
#endif

/* The version of the structs and calls of this header. It is that of the library if
 * interpolator_version() returns it, and interpolator_layout() says how the library lays out the
 * structs. */
#define INTERPOLATOR_VERSION 1

/* Bytes that the caller owns. */
typedef struct {
  const char *at;
  size_t length;
} interpolator_bytes;

/* The traits under which a format writes a value; ITER is that of a list. */
enum {
  INTERPOLATOR_DISPLAY,   /* {x}   */
  INTERPOLATOR_DEBUG,     /* {x:?} */
  INTERPOLATOR_BINARY,    /* {x:b} */
  INTERPOLATOR_OCTAL,     /* {x:o} */
  INTERPOLATOR_LOWER_HEX, /* {x:x} */
  INTERPOLATOR_UPPER_HEX, /* {x:X} */
  INTERPOLATOR_LOWER_EXP, /* {x:e} */
  INTERPOLATOR_UPPER_EXP, /* {x:E} */
  INTERPOLATOR_ITER       /* {x:i} */
};

/* `fill` of a request that has none: a space. */
#define INTERPOLATOR_NO_FILL UINT32_MAX

/* How an argument wants its value written. Zeroed but for `fill`, it is that of `{x}`. */
typedef struct {
  uint32_t slot;      /* the trait, of the enum above */
  uint32_t fill;      /* the code of the fill character, or INTERPOLATOR_NO_FILL */
  uint32_t alignment; /* 0 none, 1 `<`, 2 `^`, 3 `>` */
  uint32_t sign;      /* 0 none, 1 `+`, 2 `-` */
  uint32_t alternate; /* 1 after `#`, else 0 */
  uint32_t zero;      /* 1 after the flag `0`, else 0 */
  uint32_t hex_debug; /* 0 none, 1 `x?`, 2 `X?` */
  uint32_t given;     /* INTERPOLATOR_WIDTH | INTERPOLATOR_PRECISION, if they are given */
  size_t width;       /* 0 if not given */
  size_t precision;   /* 0 if not given */
} interpolator_request;

enum { INTERPOLATOR_WIDTH = 1, INTERPOLATOR_PRECISION = 2 };

/* A text that the caller made of a value, for one request. */
typedef struct {
  interpolator_request request;
  interpolator_bytes text; /* UTF-8; it is written as it is */
} interpolator_lent;

/* What a field or an item is. A kind that is none of these has no text under any trait. */
enum {
  INTERPOLATOR_TEXT,        /* `text`; if it is not UTF-8, writing it is the fault FMT */
  INTERPOLATOR_PLAIN,       /* the same, written as it is under every request: no padding, no quotes */
  INTERPOLATOR_TRUTH,       /* `natural`: 0 is false, all else true */
  INTERPOLATOR_CHARACTER,   /* `natural`: its code; if it is none, writing it is the fault FMT */
  INTERPOLATOR_UNSIGNED,    /* `natural`: an unsigned number of 8 to 64 bits */
  INTERPOLATOR_UNSIGNED128, /* `upper` * 2^64 + `natural` */
  INTERPOLATOR_SIGNED8,     /* `number`; out of range, writing it is the fault FMT */
  INTERPOLATOR_SIGNED16,
  INTERPOLATOR_SIGNED32,
  INTERPOLATOR_SIGNED64,
  INTERPOLATOR_SIGNED128,   /* `number` * 2^64 + `natural`: the halves of an __int128 */
  INTERPOLATOR_LIST,        /* the items from `first` up to, and without, `end`; `lent` for what is no list */
  INTERPOLATOR_LENT,        /* the text of `lent` that has the request; without one, MISSING_TRAIT */
  INTERPOLATOR_DOUBLE,      /* `real`, be it an infinity or a NaN, as Rust writes an f64 */
  INTERPOLATOR_FLOAT,       /* `single`, as Rust writes an f32 */
  INTERPOLATOR_DECIMAL      /* `number` * 2^64 + `natural` units of 10^-`upper`: 12.50 is 1250 units at
                               2; if `upper` is 2^32 or more, writing it is the fault FMT */
};

/* The slots of a value: under which traits a format may write it, as a mask. */
enum {
  INTERPOLATOR_SLOT_DISPLAY = 1,
  INTERPOLATOR_SLOT_DEBUG = 2,
  INTERPOLATOR_SLOT_BINARY = 4,
  INTERPOLATOR_SLOT_OCTAL = 8,
  INTERPOLATOR_SLOT_LOWER_HEX = 16,
  INTERPOLATOR_SLOT_UPPER_HEX = 32,
  INTERPOLATOR_SLOT_LOWER_EXP = 64,
  INTERPOLATOR_SLOT_UPPER_EXP = 128
};

/* A value under a name, or an item of a list. Zero what is not used. */
typedef struct {
  interpolator_bytes name;       /* UTF-8; a name that is none is not found. Of an item it is not read */
  interpolator_bytes text;       /* TEXT and PLAIN */
  const interpolator_lent *lent; /* LENT and LIST: texts, each for a request of its own; the first counts */
  size_t lent_count;
  uint32_t kind;                 /* INTERPOLATOR_TEXT .. INTERPOLATOR_DECIMAL */
  uint32_t slots;                /* a mask of its slots; 0 for those of its kind: DISPLAY and DEBUG of
                                    TEXT, PLAIN, TRUTH and CHARACTER, these, LOWER_EXP and UPPER_EXP
                                    of DOUBLE and the kinds after it, none of LIST, all eight of any
                                    other. A LIST has its items besides, whatever the mask is. */
  int64_t number;
  uint64_t natural;
  uint64_t upper;
  size_t first, end;             /* LIST */
  double real;                   /* DOUBLE */
  float single;                  /* FLOAT */
  uint32_t spare;                /* not read; zero it */
} interpolator_field;

/* What a call returns as its code. */
enum {
  INTERPOLATOR_OK,
  INTERPOLATOR_MISSING_TRAIT, /* the value has no such slot, or no text under this trait */
  INTERPOLATOR_FMT,           /* the value failed, as a text that is not UTF-8 */
  INTERPOLATOR_PARSE,         /* the format is broken */
  INTERPOLATOR_MISSING_VALUE, /* no field has the name */
  INTERPOLATOR_UNSUPPORTED,   /* the format has the option `p` */
  INTERPOLATOR_NO_MEMORY,     /* memory was refused, be it for a sentence; by interpolator_write also
                                 that a list under a width has more bytes than the room has left */
  INTERPOLATOR_NOT_UTF8,      /* the format, a column's name or a source is not UTF-8 */
  INTERPOLATOR_LISTS,         /* a list does not lie as it should: see "Lists" */
  INTERPOLATOR_FULL,          /* of interpolator_write alone: the room is too small for the text */
  INTERPOLATOR_TABLE,         /* there are not as many cells as columns times rows */
  INTERPOLATOR_MISPLACED,     /* of interpolator_escaped alone: a value is out of place */
  INTERPOLATOR_NO_ESCAPE      /* of interpolator_escaped alone: the number is no escape's */
};

/* How a format is broken: `detail & 15` of PARSE. */
enum {
  INTERPOLATOR_UNCLOSED = 1,         /* the format ends within an argument, which begins before `place` */
  INTERPOLATOR_EXPECTED_BRACE = 2,   /* a `}` should be at `place` */
  INTERPOLATOR_EXPECTED_BRACKET = 3, /* a `(` should be at `place` */
  INTERPOLATOR_BAD_WIDTH = 4,        /* the width at `place` is no number: see below */
  INTERPOLATOR_BAD_PRECISION = 5,    /* likewise the precision */
  INTERPOLATOR_BAD_FILL = 6,         /* a `{` at `place` cannot fill */
  INTERPOLATOR_BAD_LIST = 7,         /* a list has a precision, a sign, `#` or the flag `0` */
  INTERPOLATOR_BAD_RANGE = 8         /* the bound of a range at `place` is no number */
};

/* Why a width, a precision or a bound is no number: `detail >> 4` of these three, else 0. */
enum {
  INTERPOLATOR_EMPTY = 1,         /* there is no digit */
  INTERPOLATOR_INVALID_DIGIT = 2, /* a `-` is alone, or where it may not be */
  INTERPOLATOR_TOO_GREAT = 3,
  INTERPOLATOR_TOO_SMALL = 4
};

/* Why a value or a list is out of place: `detail` of MISPLACED. */
enum {
  INTERPOLATOR_MISPLACED_VALUE = 1, /* the value, or the item of a list without an item format */
  INTERPOLATOR_MISPLACED_ITEM = 2,  /* an item of the list ends elsewhere than it began */
  INTERPOLATOR_MISPLACED_JOIN = 3,  /* so does what is between two items */
  INTERPOLATOR_MISPLACED_FILL = 4   /* the character that pads the list would be more than text */
};

/* What a call returns: see "Answers". */
typedef struct {
  uint32_t code;   /* of the codes above */
  uint32_t detail; /* of MISSING_TRAIT the trait; of PARSE how the format is broken; of MISPLACED why;
                      else 0 */
  size_t place;    /* of the codes 1 to 5, FULL and MISPLACED: the byte of the format at which it is;
                      else 0 */
  size_t length;   /* of OK: bytes of the text, or how many there are; of interpolator_write: bytes in
                      the room, whatever the code is; else 0 */
  size_t message;  /* bytes of the sentence that says what is wrong; 0 if there is none */
  size_t row;      /* of interpolator_rows: how many rows come before the one that was not written;
                      else 0 */
} interpolator_answer;

/* ---- Answers
 *
 * Of each code it is said what each field is, what each room holds, and that the rest is as it was.
 *
 * A text *lies in a room if it fits*: if the room has at least as many bytes, it begins with the text,
 * and all bytes behind that are as they were. Else all of the room is as it was.
 *
 * OK: `detail`, `place`, `message` and `row` are 0. A second room is as it was.
 * 1 to 5, a fault: `detail` and `place` say which. Its sentence (docs/DEFINITIONS.md) has `message`
 * bytes, and lies in the room for sentences if it fits. If memory is refused for the sentence, the
 * answer is NO_MEMORY instead.
 * Each other code: `detail` is 0, but for MISPLACED, and `place` is, but for FULL and MISPLACED. The
 * sentence has `message` bytes, and lies in the room for sentences if it fits. It is
 *   NO_MEMORY: out of memory
 *   NOT_UTF8: not UTF-8
 *   LISTS: a list lies where it may not
 *   FULL: the room is too small
 *   TABLE: not as many cells as columns times rows
 *   MISPLACED: by its `detail`, this value is out of place, an item of this list ends elsewhere than it
 *       began, what is between two items of this list ends elsewhere than it began, or the character
 *       that pads this list is structure
 *   NO_ESCAPE: there is no such escape
 * `length` is 0 of each code but OK, except by interpolator_write; `row` is 0 except by
 * interpolator_rows.
 *
 * The room for sentences is that for the text, but for interpolator_write, which has two.
 * interpolator_faults, interpolator_arguments and interpolator_cost have none: of each code but OK,
 * all other fields are 0, and an array is as it was.
 */

/* ---- Lists
 *
 * A list has the items from `first` up to `end` of the array `items`, which all lists of a call
 * share; an item may be a list of other items. The items of a list in `items` lie after the list
 * itself, so none holds itself. Lay them level by level: first the items of the fields, then the
 * items of the lists among those, and so on, at most 64 levels. A list that lies otherwise, or past
 * the end of the array, is the code INTERPOLATOR_LISTS, and then nothing is written. (A list may lie
 * out of this order as long as there are no more than 64 levels; each level costs one pass over the
 * items, and memory for them.) Several lists may share items.
 */

/* ---- Calls
 *
 * What a call costs: a width in a format may be any number. interpolator_format keeps of a text what
 * fits in the room, in less than twice the room's memory, and counts what does not fit without
 * making it: `{a:1000000000}` takes time for a gigabyte, but no memory. A run of more than 64 copies
 * of a fill that would bring a text which does not fit past 2^36 bytes is NO_MEMORY. A list under a
 * width is made in memory first, whatever the room is.
 * interpolator_write takes as much memory as the room has, and stops where that is full: its room is
 * the limit, also of time, for a format that others wrote. What a list under a width holds in memory
 * is within it, too. interpolator_rows makes the whole text, even if it does not fit in the room.
 * interpolator_cost tells before how long a text can get. interpolator_escaped also takes memory for
 * the pieces of the format, and of its text as interpolator_format does. All other calls take memory for what the
 * format and the fields are, not for their text. */

/* The text of a format over a row of fields: the whole text, or none. Of two equal names the last
 * counts.
 *
 * OK: `length` is that of the text, which lies in the room if it fits. A room of `length` bytes would
 * do. (So a first call without a room measures it.)
 * 1 to 5: the format's fault, at `place`.
 * NO_MEMORY, NOT_UTF8, LISTS: as in "Answers". */
interpolator_answer interpolator_format(
    const char *format, size_t format_length,
    const interpolator_field *fields, size_t field_count,
    const interpolator_field *items, size_t item_count,
    char *room, size_t room_length);

/* Where the values of a format are shown, and so which of their characters are escaped. A *place* of
 * an escape is where a value that is written so stays what it is. */
enum {
  INTERPOLATOR_ESCAPE_NONE,  /* none: anywhere, and a value is written as it is */
  INTERPOLATOR_ESCAPE_LINE,  /* a line, as of a log: anywhere */
  INTERPOLATOR_ESCAPE_HTML,  /* a page: in text, or between the quotes of an attribute that is a text */
  INTERPOLATOR_ESCAPE_CSV,   /* a table: between double quotes */
  INTERPOLATOR_ESCAPE_JSON,  /* a JSON text: in a string, or under `?` between strings */
  INTERPOLATOR_ESCAPE_SHELL  /* a command: between single quotes, with nothing but words before it */
};

/* The text of a format over a row of fields, as by interpolator_format, but the text of each value is
 * escaped, after it was cut and padded, if each value of the format stands in a place of the escape.
 * docs/USING.md, "Values in pages, tables, logs and commands", says what is a place, and what the
 * text then is to whoever reads it.
 *
 * MISPLACED: a value or a list at `place` is the first that does not stand, whatever the values are and
 * whatever faults the format has; `detail` says why.
 * NO_ESCAPE: `escape` is no number of the enum above.
 * All others: as of interpolator_format; of OK and 1 to 5, each value stands. */
interpolator_answer interpolator_escaped(
    uint32_t escape,
    const char *format, size_t format_length,
    const interpolator_field *fields, size_t field_count,
    const interpolator_field *items, size_t item_count,
    char *room, size_t room_length);

/* Writes the text of a format over a row of fields into a room, up to its first fault.
 *
 * OK: the room begins with the whole text, of `length` bytes.
 * 1 to 5: the format's fault, at `place`. The room begins with all of the text before the fault, of
 * `length` bytes.
 * FULL: the text before the first fault has more bytes than the room. The room begins with the longest
 * beginning of it that fits, in whole characters, of `length` bytes; `place` is that of the first
 * character which is not there.
 * NO_MEMORY: the room begins with the text before what found no memory, of `length` bytes.
 * NOT_UTF8, LISTS: nothing is written, and `length` is 0.
 * All bytes of the room behind the first `length` are as they were. The second room is the one for
 * sentences. */
interpolator_answer interpolator_write(
    const char *format, size_t format_length,
    const interpolator_field *fields, size_t field_count,
    const interpolator_field *items, size_t item_count,
    char *room, size_t room_length,
    char *sentence, size_t sentence_length);

/* The first fault that a format has by itself or over a row of examples, at every depth of groups:
 * fields with an example value each, and lists with an item of each kind.
 *
 * OK: `length` is 0, and the room is as it was. No row that resembles the examples makes a fault: one
 * that has, under each name that the format uses, a field that resembles the example. A field
 * resembles an example of its kind if it fills all slots that the example fills, and has a text
 * wherever the example has one:
 * - a TEXT or PLAIN is UTF-8, a CHARACTER is the code of one, a SIGNED8 to SIGNED64 and the `upper` of a
 *   DECIMAL are in their range;
 * - a LENT or LIST has a text in UTF-8 for each request for which the example has one;
 * - each item of a LIST resembles some item of the example's (so only an empty list resembles an
 *   empty one).
 * 1 to 5: the first fault, at `place`.
 * NO_MEMORY, NOT_UTF8, LISTS: as in "Answers". */
interpolator_answer interpolator_check(
    const char *format, size_t format_length,
    const interpolator_field *fields, size_t field_count,
    const interpolator_field *items, size_t item_count,
    char *room, size_t room_length);

/* The first fault that a format has by itself, at every depth of groups, whatever the values are.
 *
 * OK: there is none; `length` is 0, and the room is as it was.
 * PARSE or UNSUPPORTED: it is at `place`.
 * NO_MEMORY, NOT_UTF8: as in "Answers". */
interpolator_answer interpolator_check_alone(
    const char *format, size_t format_length,
    char *room, size_t room_length);

/* A fault: its code (1 to 5), detail and place are those of an interpolator_answer. */
typedef struct {
  uint32_t code;
  uint32_t detail;
  size_t place;
} interpolator_fault;

/* All faults that a format has by itself or over a row of examples, in order; interpolator_check finds
 * the first of them.
 *
 * OK: `length` is how many there are. The array begins with as many of them as it has places for; its
 * other places are as they were.
 * NO_MEMORY, NOT_UTF8, LISTS: all other fields are 0, and the array is as it was. */
interpolator_answer interpolator_faults(
    const char *format, size_t format_length,
    const interpolator_field *fields, size_t field_count,
    const interpolator_field *items, size_t item_count,
    interpolator_fault *faults, size_t fault_count);

/* Where a format is: a text, such as a file or a line of one, and where the format begins in it. */
typedef struct {
  interpolator_bytes name; /* what the text is called, such as the name of a file; UTF-8 */
  interpolator_bytes text; /* UTF-8 */
  size_t first_line;       /* the number of the text's first line: 1 for a whole file */
  size_t start;            /* the byte of the text at which the format begins */
} interpolator_source;

/* One of the faults that interpolator_faults finds, as a compiler shows it: the source's name, line and
 * column, what it is, and the line with its argument marked. `which` is its number; that of the first
 * is 0. Each call reads the whole format anew; interpolator_explain_all of interpolator_pictures.h
 * shows all faults in time linear in them.
 *
 * OK: there are no more than `which` faults; `length` is 0, and the room is as it was.
 * 1 to 5: the fault, at `place`. In place of the sentence there is the picture, of `message` bytes,
 * without a newline at its end.
 * NO_MEMORY, LISTS, and NOT_UTF8 of the format, or the name or text of the source: as in "Answers". */
interpolator_answer interpolator_explain(
    const interpolator_source *source,
    const char *format, size_t format_length,
    const interpolator_field *fields, size_t field_count,
    const interpolator_field *items, size_t item_count,
    size_t which,
    char *room, size_t room_length);

/* A table: the format is read and prepared once over the columns, of which each has a name and an
 * example (as by interpolator_check), and written over each row of cells, whose names are not read.
 * There are `row_count` times `column_count` cells, row by row. A list among them has no items.
 *
 * OK: the rows' texts one after the other are `length` bytes, and lie in the room if they fit; ends[i]
 * is where row i ends.
 * 1 to 5: the first fault, at `place`: that of the format over the columns, or else of the first row
 * that has one. `row` rows come before it, and for each of them ends[i] is where row i ends.
 * NO_MEMORY: likewise, with the number of rows before what found no memory.
 * NOT_UTF8 of the format or a column's name, LISTS, TABLE (`cell_count` is not `column_count` times
 * `row_count`): as in "Answers", with `row` 0.
 * All other ends are as they were. */
interpolator_answer interpolator_rows(
    const char *format, size_t format_length,
    const interpolator_field *columns, size_t column_count,
    const interpolator_field *cells, size_t cell_count,
    size_t *ends, size_t row_count,
    char *room, size_t room_length);

/* How much a format can write, over values whose texts have at most `text` characters and whose lists
 * have at most `items` items. Of each count SIZE_MAX stands for as many or more. Of NO_MEMORY and
 * NOT_UTF8, all other fields are 0. */
typedef struct {
  uint32_t code;     /* OK, NO_MEMORY or NOT_UTF8 */
  uint32_t detail;   /* 0 */
  size_t characters; /* the most characters of the text */
  size_t pieces;     /* the most pieces that are gone through */
  size_t buffered;   /* the most characters that lists under a width hold in memory at a time */
} interpolator_cost_answer;

interpolator_cost_answer interpolator_cost(
    const char *format, size_t format_length, size_t text, size_t items);

/* An argument of a format: what is in braces. Places count bytes of the format. */
typedef struct {
  size_t name_first, name_end;   /* where its name lies; in an item format that of the item is empty */
  interpolator_request request;  /* its trait, ITER for a list, and its spec */
  size_t item_first, item_end;   /* of a list, where the format of an item lies; 0, 0 if there is none */
  size_t join_first, join_end;   /* of a list, where the format of what is between two items lies */
} interpolator_argument;

/* The arguments of a format in order, and after a list those of its item format and of its join: how
 * a caller learns which texts it has to lend. A broken argument is not among them.
 *
 * OK: `length` is how many there are. The array begins with as many of them as it has places for; its
 * other places are as they were.
 * NO_MEMORY, NOT_UTF8: all other fields are 0, and the array is as it was. */
interpolator_answer interpolator_arguments(
    const char *format, size_t format_length,
    interpolator_argument *arguments, size_t argument_count);

/* The version that the library was built with. */
uint32_t interpolator_version(void);

/* The sizes of the structs, and the offsets of some members, that the library was built with. */
typedef struct {
  size_t request, lent, field, answer, argument, cost_answer, fault, source;
  size_t request_width, lent_text, field_kind, field_number, field_first, field_real, field_single;
  size_t answer_place, argument_request, argument_item;
} interpolator_sizes;

interpolator_sizes interpolator_layout(void);

/* Whether the library has the version and the structs of this header: ask it once at the start if the
 * two may come from different builds. */
static inline int interpolator_agrees(void) {
  interpolator_sizes of = interpolator_layout();
  return interpolator_version() == INTERPOLATOR_VERSION
      && of.request == sizeof(interpolator_request) && of.lent == sizeof(interpolator_lent)
      && of.field == sizeof(interpolator_field) && of.answer == sizeof(interpolator_answer)
      && of.argument == sizeof(interpolator_argument)
      && of.cost_answer == sizeof(interpolator_cost_answer)
      && of.fault == sizeof(interpolator_fault) && of.source == sizeof(interpolator_source)
      && of.request_width == offsetof(interpolator_request, width)
      && of.lent_text == offsetof(interpolator_lent, text)
      && of.field_kind == offsetof(interpolator_field, kind)
      && of.field_number == offsetof(interpolator_field, number)
      && of.field_first == offsetof(interpolator_field, first)
      && of.field_real == offsetof(interpolator_field, real)
      && of.field_single == offsetof(interpolator_field, single)
      && of.answer_place == offsetof(interpolator_answer, place)
      && of.argument_request == offsetof(interpolator_argument, request)
      && of.argument_item == offsetof(interpolator_argument, item_first);
}

/* ---- Memory
 *
 * A program may define these three, and then the library takes all its memory by them; else it calls
 * malloc, realloc and free. They may be called by several threads at a time. `align` is a power of
 * two, at most 16. A block with `ok` 0 refuses the memory, and a call then returns
 * INTERPOLATOR_NO_MEMORY; its `at` is not null and is not read. */
typedef struct {
  size_t ok; /* 1, or 0 if there is no memory */
  void *at;
} rattle_block;

/* Define them where this header is included: the shared library then finds them even in a program that
 * is compiled by -fvisibility=hidden. */
#ifdef __GNUC__
#define INTERPOLATOR_SEEN __attribute__((visibility("default")))
#else
#define INTERPOLATOR_SEEN
#endif

INTERPOLATOR_SEEN rattle_block rattle_alloc(size_t size, size_t align);
/* The first `kept` bytes are kept. If it refuses, the old block stays as it is. */
INTERPOLATOR_SEEN rattle_block rattle_realloc(void *at, size_t kept, size_t size, size_t align);
INTERPOLATOR_SEEN void rattle_dealloc(void *at);

/* ---- Making fields */

static inline interpolator_bytes interpolator_span(const char *at, size_t length) {
  interpolator_bytes bytes;
  bytes.at = at;
  bytes.length = length;
  return bytes;
}

/* The bytes of a text that a zero byte ends. */
static inline interpolator_bytes interpolator_string(const char *text) {
  return interpolator_span(text, strlen(text));
}

/* A field of this name and kind, with all else zero. */
static inline interpolator_field interpolator_of(const char *name, uint32_t kind) {
  interpolator_field field;
  memset(&field, 0, sizeof field);
  field.name = interpolator_string(name);
  field.kind = kind;
  return field;
}

static inline interpolator_field interpolator_text(const char *name, const char *text) {
  interpolator_field field = interpolator_of(name, INTERPOLATOR_TEXT);
  field.text = interpolator_string(text);
  return field;
}

static inline interpolator_field interpolator_int(const char *name, int number) {
  interpolator_field field = interpolator_of(name, INTERPOLATOR_SIGNED32);
  field.number = number;
  return field;
}

static inline interpolator_field interpolator_int64(const char *name, int64_t number) {
  interpolator_field field = interpolator_of(name, INTERPOLATOR_SIGNED64);
  field.number = number;
  return field;
}

static inline interpolator_field interpolator_uint64(const char *name, uint64_t number) {
  interpolator_field field = interpolator_of(name, INTERPOLATOR_UNSIGNED);
  field.natural = number;
  return field;
}

static inline interpolator_field interpolator_truth(const char *name, int truth) {
  interpolator_field field = interpolator_of(name, INTERPOLATOR_TRUTH);
  field.natural = truth != 0;
  return field;
}

static inline interpolator_field interpolator_character(const char *name, uint32_t code) {
  interpolator_field field = interpolator_of(name, INTERPOLATOR_CHARACTER);
  field.natural = code;
  return field;
}

/* A double, as Rust writes it: with a precision all digits are exact, and without one they are the
 * fewest that are read as the same double again. Neither the locale nor the rounding mode matters. */
static inline interpolator_field interpolator_double(const char *name, double number) {
  interpolator_field field = interpolator_of(name, INTERPOLATOR_DOUBLE);
  field.real = number;
  return field;
}

/* A float, which as a double would have more digits. */
static inline interpolator_field interpolator_float(const char *name, float number) {
  interpolator_field field = interpolator_of(name, INTERPOLATOR_FLOAT);
  field.single = number;
  return field;
}

/* A decimal, `units` of 10^-scale: 12.50 is 1250 at the scale 2. A precision rounds to the nearest, of
 * two to the even one. */
static inline interpolator_field interpolator_decimal(
    const char *name, int64_t units, uint32_t scale) {
  interpolator_field field = interpolator_of(name, INTERPOLATOR_DECIMAL);
  field.number = units < 0 ? -1 : 0;
  field.natural = (uint64_t)units;
  field.upper = scale;
  return field;
}

/* A format that is a text by itself, or begins at a line of a file. */
static inline interpolator_source interpolator_whole(
    const char *name, size_t first_line, const char *format, size_t format_length) {
  interpolator_source source;
  source.name = interpolator_string(name);
  source.text = interpolator_span(format, format_length);
  source.first_line = first_line;
  source.start = 0;
  return source;
}

/* The items from `first` up to `end` of the array of items. */
static inline interpolator_field interpolator_list(const char *name, size_t first, size_t end) {
  interpolator_field field = interpolator_of(name, INTERPOLATOR_LIST);
  field.first = first;
  field.end = end;
  return field;
}

/* A value that only the caller can print, by texts that were made for requests. */
static inline interpolator_field interpolator_lent_texts(
    const char *name, const interpolator_lent *texts, size_t count) {
  interpolator_field field = interpolator_of(name, INTERPOLATOR_LENT);
  field.lent = texts;
  field.lent_count = count;
  return field;
}

#ifdef __cplusplus
}
#endif
#endif
