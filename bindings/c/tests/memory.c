/* The program's own allocator in place of the library's: each allocation of each call is refused in turn.
 * A refused call returns INTERPOLATOR_NO_MEMORY and gives back all that it took. Every field of its answer
 * is looked at, and every byte of each room, which is filled before with bytes that no text has. */
#include "interpolator.h"
#include <stdio.h>
#include <stdlib.h>

static long allowed = -1; /* how many allocations are allowed before one is refused; -1 for all */
static int and_later;     /* whether those after it are refused, too */
static long live, calls;
static size_t largest; /* of the blocks that were asked for */
static char nothing[16];

static int refuses(void) {
  calls++;
  if (allowed > 0) allowed--;
  else if (allowed == 0) {
    if (!and_later) allowed = -1;
    return 1;
  }
  return 0;
}

static rattle_block block(void *at) {
  rattle_block made;
  made.ok = at != NULL;
  made.at = at ? at : nothing;
  return made;
}

rattle_block rattle_alloc(size_t size, size_t align) {
  void *at = refuses() ? NULL : malloc(size ? size : align);
  if (size > largest) largest = size;
  live += at != NULL;
  return block(at);
}

rattle_block rattle_realloc(void *at, size_t kept, size_t size, size_t align) {
  (void)kept;
  if (size > largest) largest = size;
  return block(refuses() ? NULL : realloc(at, size ? size : align));
}

void rattle_dealloc(void *at) {
  live--;
  free(at);
}

enum { BEFORE = 0xAA };

static char room[1 << 12], sentence[512];
static interpolator_field items[4], fields[2], cells[2];
static size_t ends[2];
static const char no_memory[] = "out of memory";

/* Whether all of these bytes are as they were. */
static int is_as_before(const void *at, size_t length) {
  const unsigned char *bytes = (const unsigned char *)at;
  while (length > 0 && bytes[length - 1] == BEFORE) length--;
  return length == 0;
}

/* Whether a text lies at the front of a room, of which all else is as it was. */
static int begins(const char *of, size_t of_length, const char *text, size_t length) {
  return length <= of_length && memcmp(of, text, length) == 0 && is_as_before(of + length, of_length - length);
}

static int same(interpolator_answer got, uint32_t code, size_t place, size_t length, size_t message, size_t row) {
  return got.code == code && got.detail == 0 && got.place == place && got.length == length
      && got.message == message && got.row == row;
}

/* Whether an answer is that of NO_MEMORY, with its sentence in this room. */
static int lacks(interpolator_answer got, size_t length, size_t row, const char *of, size_t of_length) {
  return same(got, INTERPOLATOR_NO_MEMORY, 0, length, sizeof no_memory - 1, row)
      && begins(of, of_length, no_memory, sizeof no_memory - 1);
}

/* Whether an answer is whole, with this text or sentence in the room: it is a text of a call that says OK,
 * and a sentence of any other. */
static int told(interpolator_answer got, uint32_t code, size_t place, const char *text) {
  size_t length = strlen(text), is_ok = code == INTERPOLATOR_OK;
  return same(got, code, place, is_ok ? length : 0, is_ok ? 0 : length, 0)
      && begins(room, sizeof room, text, length);
}

/* Each call says whether its answer and what it wrote are whole: those of a refusal of memory, or, as
 * `refused` says that none was refused, those of a call with all its memory. */
static int format(const char *of, uint32_t code, size_t place, const char *text, int refused) {
  interpolator_answer got = interpolator_format(of, strlen(of), fields, 2, items, 4, room, sizeof room);
  return refused ? lacks(got, 0, 0, room, sizeof room) : told(got, code, place, text);
}
static int format_text(int refused) {
  return format("{name} {l:i({})(, )} and more than there was room for {l:>20i({})}", INTERPOLATOR_OK, 0,
                "Ann a, 255 and more than there was room for                 a255", refused);
}
static int format_fault(int refused) {
  return format("{nobody}", INTERPOLATOR_MISSING_VALUE, 1, "specified value not in context `nobody` at 1", refused);
}
static int escaped(int refused) {
  static const char *of = "<p title=\"{name}\">{l:i(<i>{}</i>)} and {l:>20i({})}</p>";
  interpolator_answer got = interpolator_escaped(INTERPOLATOR_ESCAPE_HTML, of, strlen(of), fields, 2, items, 4,
                                                 room, sizeof room);
  return refused ? lacks(got, 0, 0, room, sizeof room)
                 : told(got, INTERPOLATOR_OK, 0,
                        "<p title=\"Ann\"><i>a</i><i>255</i> and                 a255</p>");
}
static int write_fault(int refused) {
  static const char *of = "{name} {l:>9i({})(, )}{nobody}", *text = "Ann    a, 255";
  static const char *says = "specified value not in context `nobody` at 23";
  interpolator_answer got =
      interpolator_write(of, strlen(of), fields, 2, items, 4, room, sizeof room, sentence, sizeof sentence);
  if (!begins(room, sizeof room, text, got.length)) return 0;
  if (refused) /* before the list, before the name that is missing, or before its sentence */
    return (got.length == 0 || got.length == 4 || got.length == strlen(text))
        && lacks(got, got.length, 0, sentence, sizeof sentence);
  return same(got, INTERPOLATOR_MISSING_VALUE, 23, strlen(text), strlen(says), 0)
      && begins(sentence, sizeof sentence, says, strlen(says));
}
static int write_full(int refused) {
  interpolator_answer got = interpolator_write("{name} {name}", 13, fields, 2, items, 4, room, 5, sentence, 40);
  if (refused) return lacks(got, 0, 0, sentence, sizeof sentence) && is_as_before(room, sizeof room);
  return same(got, INTERPOLATOR_FULL, 12, 5, 21, 0) && begins(room, sizeof room, "Ann A", 5)
      && begins(sentence, sizeof sentence, "the room is too small", 21);
}
static int check(int refused) {
  static const char *of = "{name} {l:i({})(, )}{nobody}";
  interpolator_answer got = interpolator_check(of, strlen(of), fields, 2, items, 4, room, sizeof room);
  return refused ? lacks(got, 0, 0, room, sizeof room)
                 : told(got, INTERPOLATOR_MISSING_VALUE, 21, "specified value not in context `nobody` at 21");
}
static int explain(int refused) {
  static const char *of = "{name} {nobody}";
  interpolator_source source = interpolator_whole("f", 1, of, strlen(of));
  interpolator_answer got =
      interpolator_explain(&source, of, strlen(of), fields, 2, items, 4, 0, room, sizeof room);
  return refused ? lacks(got, 0, 0, room, sizeof room)
                 : told(got, INTERPOLATOR_MISSING_VALUE, 8,
                        "f:1:9: specified value not in context `nobody` at 8\n"
                        "  |\n1 | {name} {nobody}\n  |        ~^~~~~~~");
}
static int check_alone(int refused) {
  interpolator_answer got = interpolator_check_alone("{name:p}", 8, room, sizeof room);
  return refused ? lacks(got, 0, 0, room, sizeof room)
                 : told(got, INTERPOLATOR_UNSUPPORTED, 6, "option `p` is not supported without feature `pointer` at 6");
}
static int faults(int refused) {
  interpolator_fault found[3];
  interpolator_answer got;
  memset(found, BEFORE, sizeof found);
  got = interpolator_faults("{nobody}{nothing}", 17, fields, 2, items, 4, found, 3);
  if (refused) return same(got, INTERPOLATOR_NO_MEMORY, 0, 0, 0, 0) && is_as_before(found, sizeof found);
  return same(got, INTERPOLATOR_OK, 0, 2, 0, 0) && found[0].code == INTERPOLATOR_MISSING_VALUE
      && found[0].detail == 0 && found[0].place == 1 && found[1].code == INTERPOLATOR_MISSING_VALUE
      && found[1].detail == 0 && found[1].place == 9 && is_as_before(found + 2, sizeof *found);
}
static int rows(int refused) {
  interpolator_answer got =
      interpolator_rows("{name:>9}|", 10, fields, 1, cells, 2, ends, 2, room, sizeof room);
  if (refused)
    return got.row < 2 && lacks(got, 0, got.row, room, sizeof room) && (got.row == 0 || ends[0] == 10)
        && is_as_before(ends + got.row, (2 - got.row) * sizeof *ends);
  return told(got, INTERPOLATOR_OK, 0, "      Bob|      Bob|") && ends[0] == 10 && ends[1] == 20;
}
static int rows_fault(int refused) {
  static const char *says = "error while formatting at 5: an error occurred when formatting an argument";
  interpolator_answer got;
  cells[1].text = interpolator_string("\xff");
  got = interpolator_rows("{name}|", 7, fields, 1, cells, 2, ends, 2, room, sizeof room);
  cells[1] = cells[0];
  if (refused)
    return got.row < 2 && lacks(got, 0, got.row, room, sizeof room) && (got.row == 0 || ends[0] == 4)
        && is_as_before(ends + got.row, (2 - got.row) * sizeof *ends);
  return same(got, INTERPOLATOR_FMT, 5, 0, strlen(says), 1) && begins(room, sizeof room, says, strlen(says))
      && ends[0] == 4 && is_as_before(ends + 1, sizeof *ends);
}
static int cost(int refused) {
  interpolator_cost_answer got = interpolator_cost("{name:>5}{l:i({})}", 18, 9, 9);
  if (refused)
    return got.code == INTERPOLATOR_NO_MEMORY && got.detail == 0 && got.characters == 0 && got.pieces == 0
        && got.buffered == 0;
  return got.code == INTERPOLATOR_OK && got.detail == 0 && got.pieces > 0 && got.buffered == 0;
}
static int arguments(int refused) {
  interpolator_argument of[4];
  interpolator_answer got;
  memset(of, BEFORE, sizeof of);
  got = interpolator_arguments("{name:>5}{l:i({})}", 18, of, 4);
  if (refused) return same(got, INTERPOLATOR_NO_MEMORY, 0, 0, 0, 0) && is_as_before(of, sizeof of);
  return same(got, INTERPOLATOR_OK, 0, 3, 0, 0) && of[0].name_first == 1 && of[2].name_first == 15
      && is_as_before(of + 3, sizeof *of);
}

static const struct {
  const char *name;
  int (*call)(int refused);
} all[] = {
    {"format", format_text},         {"format, a fault", format_fault}, {"write, a fault", write_fault},
    {"escaped", escaped},
    {"write, too much", write_full}, {"check", check},                  {"explain", explain},
    {"check_alone", check_alone},    {"faults", faults},                {"rows", rows},
    {"rows, a fault", rows_fault},   {"cost", cost},                    {"arguments", arguments},
};

/* Calls with so many allocations allowed before one is refused, -1 for all. */
static int is_whole(size_t k, long allow, int later, int refused) {
  memset(room, BEFORE, sizeof room);
  memset(sentence, BEFORE, sizeof sentence);
  memset(ends, BEFORE, sizeof ends);
  calls = 0;
  allowed = allow;
  and_later = later;
  return all[k].call(refused);
}

/* However long the text is, it takes no more memory than the room has. */
static int writes_within_the_room(void) {
  static const char *of[] = {
      "{name:1000000000}", "{name:18446744073709551615}", "{l:>1000000000i({})(, )}",
      "{l:i({:1000000000})(, )}", "{l:>9i#({:>1000000000})#}", "{name}{name:^99999999}{nobody}"};
  size_t k;
  for (k = 0; k < sizeof of / sizeof *of; k++) {
    interpolator_answer got;
    largest = 0;
    got = interpolator_write(of[k], strlen(of[k]), fields, 2, items, 4, room, 200, NULL, 0);
    if (got.code != INTERPOLATOR_FULL && got.code != INTERPOLATOR_NO_MEMORY) return 0;
    if (largest > 4096) return printf("%lu bytes for %s\n", (unsigned long)largest, of[k]), 0;
  }
  return 1;
}

/* A text that does not fit is counted, and not made: neither its length nor its fault takes memory. */
static int measures_within_the_room(void) {
  static const struct {
    const char *of;
    uint32_t code;
    size_t place, length;
  } all_of[] = {
      {"{name:1000000000}", INTERPOLATOR_OK, 0, 1000000000},
      {"{name}{name:^9999999}\xC3\xA9{name:\xC3\xA9>200}", INTERPOLATOR_OK, 0, 3 + 9999999 + 2 + 3 + 394},
      {"{name:>201}", INTERPOLATOR_OK, 0, 201},
      {"{name:>100}{name:>101}", INTERPOLATOR_OK, 0, 201},
      {"{l:>9999999i({})(, )}", INTERPOLATOR_OK, 0, 9999999},
      {"{name:9999999}{nobody}", INTERPOLATOR_MISSING_VALUE, 15, 0},
      {"{name:68719476737}", INTERPOLATOR_NO_MEMORY, 0, 0},
      {"{name:18446744073709551615}", INTERPOLATOR_NO_MEMORY, 0, 0},
      {"{name:9999999}{name:18446744073709551615}", INTERPOLATOR_NO_MEMORY, 0, 0}};
  size_t k;
  for (k = 0; k < sizeof all_of / sizeof *all_of; k++) {
    interpolator_answer got;
    memset(room, BEFORE, sizeof room);
    largest = 0;
    got = interpolator_format(all_of[k].of, strlen(all_of[k].of), fields, 2, items, 4, room, 200);
    if (got.code != all_of[k].code || got.place != all_of[k].place || got.length != all_of[k].length
        || !is_as_before(room + got.message, sizeof room - got.message))
      return printf("code %u, %lu bytes of %s\n", got.code, (unsigned long)got.length, all_of[k].of), 0;
    if (largest > 4096) return printf("%lu bytes for %s\n", (unsigned long)largest, all_of[k].of), 0;
  }
  return 1;
}

int main(void) {
  size_t k;
  int failed = 0;
  fields[0] = interpolator_text("name", "Ann");
  fields[1] = interpolator_list("l", 0, 2);
  items[0] = interpolator_text("", "a");
  items[1] = interpolator_list("", 2, 4);
  items[1].slots = 0;
  items[2] = items[3] = interpolator_int("", 5);
  items[1] = interpolator_int("", 255);
  cells[0] = cells[1] = interpolator_text("", "Bob");
  for (k = 0; k < sizeof all / sizeof *all; k++) {
    long most, refused;
    if (!is_whole(k, -1, 0, 0)) failed = 1, printf("FAILED %s, with all its memory\n", all[k].name);
    most = calls;
    for (refused = 0; refused < most; refused++) {
      if (!is_whole(k, refused, 0, 1))
        failed = 1, printf("FAILED %s: allocation %ld alone refused\n", all[k].name, refused + 1);
      if (!is_whole(k, refused, 1, 1))
        failed = 1, printf("FAILED %s: all from allocation %ld on refused\n", all[k].name, refused + 1);
      if (live != 0) failed = 1, printf("FAILED %s: %ld blocks are left\n", all[k].name, live);
    }
    printf("memory: %s, each of %ld allocations refused in turn\n", all[k].name, most);
  }
  allowed = -1;
  if (!measures_within_the_room()) failed = 1, printf("FAILED format, in the memory of its room\n");
  if (!writes_within_the_room()) failed = 1, printf("FAILED write, in the memory of its room\n");
  return failed;
}
