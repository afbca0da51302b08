/* Each call with formats, texts, kinds, ranges and rooms by chance, whose memory is no longer than
 * what is said: nothing else is read or written, and the answers are what the header says.
 *
 *   bytes COUNT */
#include "interpolator.h"
#include <stdio.h>
#include <stdlib.h>

enum { FIELDS = 5, ITEMS = 8, LONGEST = 60, ROOM = 120 };

static uint64_t state = 1;
static unsigned long calls, failures;

static size_t below(size_t bound) {
  state = state * 6364136223846793005u + 1442695040888963407u;
  return (size_t)(state >> 33) % bound;
}

static void want_at(int line, const char *what, int holds) {
  if (holds) return;
  if (failures++ < 20) printf("FAILED line %d: %s\n", line, what);
}
#define WANT(holds) want_at(__LINE__, #holds, (holds))

/* Memory of its own, so that a byte past it is found. */
static char *copied(const char *from, size_t length) {
  char *at = (char *)malloc(length ? length : 1);
  if (!at) exit(2);
  memcpy(at, from, length);
  return at;
}

static const char *const parts[] = {"{",    "}",        "{a",
                                    "{b:",  "{}",       "}}",
                                    "{{",   ":i",       "({",
                                    "})",   "#(",       ")#",
                                    "(,)",  ">",        "<",
                                    "^",    "+",        "-",
                                    "#",    "0",        "7",
                                    "12",   ".",        ".3",
                                    "?",    "x",        "X?",
                                    "e",    "E",        "b",
                                    "o",    "p",        "a",
                                    "b",    "c",        " ",
                                    "..",   "\xC3\xA9", "\xF0\x9F\x98\x80",
                                    "\xff", "\xC3",     "\n"};

static interpolator_bytes text_of(size_t longest) {
  char text[4 * LONGEST];
  size_t length = 0, count = below(longest);
  for (; count; count--) {
    const char *part = parts[below(sizeof parts / sizeof *parts)];
    memcpy(text + length, part, strlen(part));
    length += strlen(part);
  }
  return interpolator_span(copied(text, length), length);
}

static interpolator_field field_of(const interpolator_lent *lent, size_t lent_count) {
  static const char *const names[] = {"a", "b", "c", "", "\xff"};
  /* the last is no kind */
  interpolator_field field = interpolator_of(names[below(5)], (uint32_t)below(17));
  uint64_t bits = state << below(2);
  field.text = text_of(6);
  field.lent = lent;
  field.lent_count = below(lent_count + 1);
  field.slots = below(2) ? 0 : (uint32_t)below(600);
  field.number = (int64_t)(state << below(60));
  field.natural = below(2) ? below(0x120000) : state << below(60);
  field.upper = state >> below(60);
  /* a scale says how many digits are written */
  if (field.kind == INTERPOLATOR_DECIMAL) field.upper = below(40) + ((uint64_t)!below(8) << 32);
  memcpy(&field.real, &bits, sizeof field.real);
  memcpy(&field.single, &bits, sizeof field.single);
  field.first = below(ITEMS + 2);
  field.end = field.first + below(3);
  return field;
}

/* What a call of one test has. */
static struct {
  interpolator_bytes format;
  interpolator_field *fields, *items;
  interpolator_lent *lent;
  size_t field_count, item_count, lent_count;
  char *room;
  size_t size;
} now;

static void make(void) {
  interpolator_argument *asked = (interpolator_argument *)malloc(8 * sizeof *asked);
  size_t k;
  if (!asked) exit(2);
  now.format = text_of(LONGEST / 2);
  interpolator_arguments(now.format.at, now.format.length, asked, 8);
  now.lent_count = interpolator_arguments(now.format.at, now.format.length, asked, 8).length;
  if (now.lent_count > 8) now.lent_count = 8;
  now.lent = (interpolator_lent *)malloc((now.lent_count + 1) * sizeof *now.lent);
  now.field_count = below(FIELDS + 1);
  now.item_count = below(ITEMS + 1);
  now.fields = (interpolator_field *)malloc((now.field_count + 1) * sizeof *now.fields);
  now.items = (interpolator_field *)malloc((now.item_count + 1) * sizeof *now.items);
  now.size = below(ROOM);
  now.room = (char *)malloc(now.size + 1);
  if (!now.lent || !now.fields || !now.items || !now.room) exit(2);
  for (k = 0; k < now.lent_count; k++) {
    now.lent[k].request = asked[k].request;
    now.lent[k].text = text_of(4);
  }
  for (k = 0; k < now.field_count; k++) now.fields[k] = field_of(now.lent, now.lent_count);
  for (k = 0; k < now.item_count; k++) now.items[k] = field_of(now.lent, now.lent_count);
  free(asked);
}

static void unmake(void) {
  size_t k;
  for (k = 0; k < now.lent_count; k++) free((void *)now.lent[k].text.at);
  for (k = 0; k < now.field_count; k++) free((void *)now.fields[k].text.at);
  for (k = 0; k < now.item_count; k++) free((void *)now.items[k].text.at);
  free((void *)now.format.at);
  free(now.lent);
  free(now.fields);
  free(now.items);
  free(now.room);
}

/* What holds of an answer whose text, or else its sentence, is in the room. */
static void judge(interpolator_answer got, size_t length) {
  size_t k, written = length <= now.size ? length : 0;
  calls++;
  WANT(got.code <= INTERPOLATOR_NO_ESCAPE);
  WANT(got.place <= now.format.length);
  if (got.code == INTERPOLATOR_OK) WANT(got.message == 0);
  if (got.code >= 1 && got.code <= 5) WANT(got.message > 0);
  for (k = written; k < now.size; k++) WANT(now.room[k] == 'Z');
  memset(now.room, 'Z', now.size);
}

static size_t length_of(interpolator_answer got) {
  return got.code == INTERPOLATOR_OK ? got.length : got.message;
}

#define FORMAT now.format.at, now.format.length
#define VALUES now.fields, now.field_count, now.items, now.item_count
#define INTO now.room, now.size

static void texts(void) {
  interpolator_answer got = interpolator_format(FORMAT, VALUES, INTO), written;
  char *sentence = copied("ZZZZZZZZZZZZZZZZZZZZZZZZZZZZZZZZZZZZZZZZ", 40);
  uint32_t code = got.code;
  size_t place = got.place, length = got.length, k;
  judge(got, length_of(got));
  written = interpolator_write(FORMAT, VALUES, INTO, sentence, 40);
  calls++;
  WANT(written.length <= now.size);
  for (k = written.length; k < now.size; k++) WANT(now.room[k] == 'Z');
  for (k = written.message <= 40 ? written.message : 0; k < 40; k++) WANT(sentence[k] == 'Z');
  if (code == INTERPOLATOR_OK && length <= now.size && written.code != INTERPOLATOR_NO_MEMORY)
    WANT(written.code == INTERPOLATOR_OK && written.length == length);
  if (written.code >= 1 && written.code <= 5) WANT(written.code == code && written.place == place);
  memset(now.room, 'Z', now.size);
  free(sentence);
}

static void escapes(void) {
  uint32_t escape = (uint32_t)below(7);
  interpolator_answer got = interpolator_escaped(escape, FORMAT, VALUES, INTO), plain;
  WANT((got.code == INTERPOLATOR_NO_ESCAPE) == (escape == 6));
  if (got.code == INTERPOLATOR_MISPLACED) WANT(got.detail >= 1 && got.detail <= 4 && escape);
  judge(got, length_of(got));
  if (escape == 6 || got.code == INTERPOLATOR_MISPLACED) return;
  plain = interpolator_format(FORMAT, VALUES, INTO);
  WANT(plain.code == got.code && plain.place == got.place && plain.detail == got.detail);
  if (plain.code == INTERPOLATOR_OK)
    WANT(escape ? plain.length <= got.length : plain.length == got.length);
  judge(plain, length_of(plain));
}

static void checks(void) {
  interpolator_fault *all = (interpolator_fault *)malloc(3 * sizeof *all);
  interpolator_answer first = interpolator_check(FORMAT, VALUES, INTO), got;
  interpolator_source source;
  interpolator_bytes around;
  size_t count;
  judge(first, length_of(first));
  got = interpolator_check_alone(FORMAT, INTO);
  judge(got, length_of(got));
  got = interpolator_faults(FORMAT, VALUES, all, 3);
  count = got.length;
  if (got.code == INTERPOLATOR_OK) {
    WANT((count == 0) == (first.code == INTERPOLATOR_OK));
    if (count)
      WANT(all[0].code == first.code && all[0].place == first.place
           && all[0].detail == first.detail);
  }
  around = text_of(20);
  source.name = interpolator_string("a name");
  source.text = around;
  source.first_line = below(2) ? SIZE_MAX : below(9);
  source.start = below(2) ? SIZE_MAX : below(40);
  got = interpolator_explain(&source, FORMAT, VALUES, below(4), INTO);
  judge(got, length_of(got));
  free((void *)around.at);
  free(all);
}

static void others(void) {
  interpolator_argument *arguments = (interpolator_argument *)malloc(2 * sizeof *arguments);
  size_t columns = below(now.field_count + 1), count = below(3), k;
  size_t *ends = (size_t *)malloc((count + 1) * sizeof *ends);
  size_t cells = below(9) ? columns * count : below(now.item_count + 1);
  interpolator_answer got;
  if (cells > now.item_count) cells = now.item_count;
  got = interpolator_rows(FORMAT, now.fields, columns, now.items, cells, ends, count, INTO);
  judge(got, length_of(got));
  WANT((got.code == INTERPOLATOR_TABLE) <= (cells != columns * count));
  if (got.code == INTERPOLATOR_OK && count) WANT(ends[count - 1] == got.length);
  got = interpolator_arguments(FORMAT, arguments, 2);
  for (k = 0; k < got.length && k < 2; k++)
    WANT(arguments[k].name_first <= arguments[k].name_end
         && arguments[k].name_end <= now.format.length);
  WANT(interpolator_cost(FORMAT, below(9), below(4)).code <= INTERPOLATOR_NOT_UTF8);
  free(arguments);
  free(ends);
}

int main(int words, char **word) {
  size_t count = words > 1 ? (size_t)strtoul(word[1], NULL, 10) : 20000;
  for (; count; count--) {
    make();
    memset(now.room, 'Z', now.size);
    texts();
    escapes();
    checks();
    others();
    unmake();
  }
  printf("bytes: %lu calls, %lu failed\n", calls, failures);
  return failures != 0;
}
