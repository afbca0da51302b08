/* Each call of interpolator.h once, by C99 and by C++17, with what no row of the conformance suite says:
 * slots by a mask, texts that are lent, lists that lie where they may not, null pointers, bytes that are
 * no text, tables, costs, and pictures. Of each answer every field is looked at, and every byte of each
 * room, which is filled before with bytes that no text has. */
#include "interpolator.h"
#include <stdio.h>

enum { ROOM = 1 << 12, BEFORE = 0xAA };

static unsigned long checks, failures;
static char room[ROOM], sentence[ROOM];

static void want_at(int line, const char *what, int holds) {
  checks++;
  if (holds) return;
  failures++;
  printf("FAILED line %d: %s\n", line, what);
}
#define WANT(holds) want_at(__LINE__, #holds, (holds))

static void fill(void *at, size_t length) { memset(at, BEFORE, length); }

/* Whether all of these bytes are as they were. */
static int is_as_before(const void *at, size_t length) {
  const unsigned char *bytes = (const unsigned char *)at;
  while (length > 0 && bytes[length - 1] == BEFORE) length--;
  return length == 0;
}

/* Whether a text lies at the front of a room, of which all else is as it was. */
static int begins(const char *of, size_t of_length, const char *text, size_t length) {
  return length <= of_length && (length == 0 || memcmp(of, text, length) == 0)
      && is_as_before(of + length, of_length - length);
}

/* Whether a text lies in a room if it fits, and else all of the room is as it was. */
static int lies(const char *of, size_t of_length, const char *text) {
  size_t length = strlen(text);
  return length <= of_length ? begins(of, of_length, text, length) : is_as_before(of, of_length);
}

static interpolator_answer answer(uint32_t code, uint32_t detail, size_t place, size_t length, size_t message,
                                  size_t row) {
  interpolator_answer made;
  made.code = code;
  made.detail = detail;
  made.place = place;
  made.length = length;
  made.message = message;
  made.row = row;
  return made;
}

static int same(interpolator_answer got, interpolator_answer wanted) {
  return got.code == wanted.code && got.detail == wanted.detail && got.place == wanted.place
      && got.length == wanted.length && got.message == wanted.message && got.row == wanted.row;
}

/* The sentence of a code that is no fault's. */
static const char *sentence_of(uint32_t code) {
  switch (code) {
    case INTERPOLATOR_NO_MEMORY: return "out of memory";
    case INTERPOLATOR_NOT_UTF8: return "not UTF-8";
    case INTERPOLATOR_LISTS: return "a list lies where it may not";
    case INTERPOLATOR_FULL: return "the room is too small";
    case INTERPOLATOR_TABLE: return "not as many cells as columns times rows";
    case INTERPOLATOR_NO_ESCAPE: return "there is no such escape";
    default: return "";
  }
}

static interpolator_answer formatted(const char *format, const interpolator_field *fields, size_t count,
                                     const interpolator_field *items, size_t item_count) {
  fill(room, sizeof room);
  return interpolator_format(format, strlen(format), fields, count, items, item_count, room, sizeof room);
}

static int is_text(interpolator_answer got, const char *text) {
  return same(got, answer(INTERPOLATOR_OK, 0, 0, strlen(text), 0, 0)) && lies(room, sizeof room, text);
}

/* Whether this fault is the whole answer, with its sentence. */
static int is_fault(interpolator_answer got, uint32_t code, uint32_t detail, size_t place, const char *text) {
  return same(got, answer(code, detail, place, 0, strlen(text), 0)) && lies(room, sizeof room, text);
}

/* Whether a code that is no fault's is the whole answer, with its sentence. */
static int is_code(interpolator_answer got, uint32_t code) {
  return is_fault(got, code, 0, 0, sentence_of(code));
}

static int is_fmt(interpolator_answer got, size_t place) {
  char text[128];
  snprintf(text, sizeof text, "error while formatting at %lu: an error occurred when formatting an argument",
           (unsigned long)place);
  return is_fault(got, INTERPOLATOR_FMT, 0, place, text);
}

static int is_missing_trait(interpolator_answer got, uint32_t slot, size_t place) {
  static const char *const names[] = {"Display", "Debug", "Binary", "Octal", "LowerHex", "UpperHex", "LowerExp",
                                      "UpperExp", "Iter"};
  char text[128];
  snprintf(text, sizeof text, "trait `%s` not implemented, used by format argument at %lu", names[slot],
           (unsigned long)place);
  return is_fault(got, INTERPOLATOR_MISSING_TRAIT, slot, place, text);
}

static int is_missing_value(interpolator_answer got, const char *name, size_t place) {
  char text[128];
  snprintf(text, sizeof text, "specified value not in context `%s` at %lu", name, (unsigned long)place);
  return is_fault(got, INTERPOLATOR_MISSING_VALUE, 0, place, text);
}

static void texts(void) {
  interpolator_field f[3];
  f[0] = interpolator_text("name", "Ann");
  f[1] = interpolator_int("n", -7);
  f[2] = interpolator_text("name", "Bob");
  WANT(is_text(formatted("Hello {name}, {{n}} is {n:>5}", f, 3, NULL, 0), "Hello Bob, {n} is    -7"));
  WANT(is_text(formatted("", NULL, 0, NULL, 0), ""));
  WANT(is_missing_value(formatted("a{q}", f, 3, NULL, 0), "q", 2));
  WANT(is_missing_trait(formatted("{name:x}", f, 3, NULL, 0), INTERPOLATOR_LOWER_HEX, 7));
  WANT(interpolator_format("{name", 5, f, 3, NULL, 0, NULL, 0).code == INTERPOLATOR_PARSE);
  WANT(interpolator_format(NULL, 0, NULL, 0, NULL, 0, NULL, 0).code == INTERPOLATOR_OK);
  WANT(is_code(formatted("\xff", f, 3, NULL, 0), INTERPOLATOR_NOT_UTF8));
}

static void kinds(void) {
  interpolator_field f[8];
  f[0] = interpolator_of("big", INTERPOLATOR_SIGNED128);
  f[0].number = INT64_MIN;
  f[1] = interpolator_of("great", INTERPOLATOR_UNSIGNED128);
  f[1].natural = f[1].upper = UINT64_MAX;
  f[2] = interpolator_character("c", 0x1F600);
  f[3] = interpolator_truth("t", 42);
  f[4] = interpolator_of("small", INTERPOLATOR_SIGNED8);
  f[4].number = 200;
  f[5] = interpolator_text("bytes", "\xff");
  f[6] = interpolator_of("odd", 1000);
  f[7] = interpolator_character("none", 0xD800);
  WANT(is_text(formatted("{big}", f, 8, NULL, 0), "-170141183460469231731687303715884105728"));
  WANT(is_text(formatted("{great:x}", f, 8, NULL, 0), "ffffffffffffffffffffffffffffffff"));
  WANT(is_text(formatted("{c}{t}", f, 8, NULL, 0), "\xF0\x9F\x98\x80true"));
  WANT(is_fmt(formatted("{small}", f, 8, NULL, 0), 6));
  WANT(is_fmt(formatted("{bytes}", f, 8, NULL, 0), 6));
  WANT(is_fmt(formatted("{none}", f, 8, NULL, 0), 5));
  WANT(is_missing_trait(formatted("{odd}", f, 8, NULL, 0), INTERPOLATOR_DISPLAY, 4));
  f[4].number = -1;
  WANT(is_text(formatted("{small:x}", f, 8, NULL, 0), "ff"));
  f[5].name = interpolator_span("\xff", 1);
  WANT(is_missing_value(formatted("{bytes}", f, 8, NULL, 0), "bytes", 1));
}

static void slots(void) {
  static const char *const formats[] = {"{n}", "{n:?}", "{n:b}", "{n:o}", "{n:x}", "{n:X}", "{n:e}", "{n:E}"};
  static const char *const written[] = {"10", "10", "1010", "12", "a", "A", "1e1", "1E1"};
  static const size_t places[] = {2, 4, 4, 4, 4, 4, 4, 4};
  interpolator_field n = interpolator_int("n", 10);
  uint32_t mask;
  int k;
  for (mask = 1; mask < 256; mask++)
    for (k = 0; k < 8; k++) {
      n.slots = mask;
      if (mask >> k & 1) WANT(is_text(formatted(formats[k], &n, 1, NULL, 0), written[k]));
      else WANT(is_missing_trait(formatted(formats[k], &n, 1, NULL, 0), (uint32_t)k, places[k]));
    }
}

static void lists(void) {
  interpolator_field l = interpolator_list("l", 0, 2), items[6];
  items[0] = interpolator_list("", 2, 4);
  items[1] = interpolator_list("", 4, 6);
  items[2] = interpolator_int("", 1);
  items[3] = interpolator_int("", 2);
  items[4] = interpolator_text("", "a");
  items[5] = interpolator_text("", "b");
  WANT(is_text(formatted("{l:i#({:i({})(,)})#(;)}", &l, 1, items, 6), "1,2;a,b"));
  WANT(is_missing_trait(formatted("{l}", &l, 1, items, 6), INTERPOLATOR_DISPLAY, 2));
  l.slots = INTERPOLATOR_SLOT_DISPLAY | INTERPOLATOR_SLOT_DEBUG; /* of which no text is lent */
  WANT(is_missing_trait(formatted("{l}", &l, 1, items, 6), INTERPOLATOR_DISPLAY, 2));
  WANT(is_text(formatted("{l:i(x)}", &l, 1, items, 6), "xx"));
  l.slots = 0;
  items[1].end = 7; /* past the array */
  WANT(is_code(formatted("", &l, 1, items, 6), INTERPOLATOR_LISTS));
  items[1] = interpolator_list("", 5, 4); /* ends before it begins */
  WANT(is_code(formatted("", &l, 1, items, 6), INTERPOLATOR_LISTS));
  items[1] = interpolator_list("", 1, 2); /* holds itself */
  WANT(is_code(formatted("", &l, 1, items, 6), INTERPOLATOR_LISTS));
  items[1] = interpolator_list("", 0, 1); /* each holds the other */
  items[0] = interpolator_list("", 1, 2);
  WANT(is_code(formatted("", &l, 1, items, 6), INTERPOLATOR_LISTS));
  l = interpolator_list("l", 0, 1);
  WANT(is_code(formatted("", &l, 1, NULL, 0), INTERPOLATOR_LISTS));
  l = interpolator_list("l", 0, 0);
  WANT(is_text(formatted("{l:i}.", &l, 1, NULL, 0), "."));
}

/* A list in a list in a list, so deep. */
static void depths(void) {
  static interpolator_field chain[80];
  interpolator_field l = interpolator_list("l", 0, 1);
  size_t depth, k;
  for (depth = 1; depth < 80; depth++) {
    for (k = 0; k < depth; k++) chain[k] = interpolator_list("", k + 1, k + 2);
    chain[depth] = interpolator_int("", 5);
    if (depth < 64) WANT(is_text(formatted("{l:i()}", &l, 1, chain, depth + 1), ""));
    else WANT(is_code(formatted("{l:i()}", &l, 1, chain, depth + 1), INTERPOLATOR_LISTS));
  }
  for (k = 0; k < 2; k++) chain[k] = interpolator_list("", k + 1, k + 2);
  chain[2] = interpolator_int("", 5);
  WANT(is_text(formatted("{l:i##({:i#({:i(<{}>)})#})##}", &l, 1, chain, 3), "<5>"));
}

static void lent(void) {
  interpolator_argument asked[4];
  interpolator_lent texts[2];
  interpolator_field price;
  char printed[32];
  interpolator_answer got;
  fill(asked, sizeof asked);
  got = interpolator_arguments("{price:>10.2} {price:?}", 23, asked, 4);
  WANT(same(got, answer(0, 0, 0, 2, 0, 0)));
  WANT(is_as_before(asked + 2, sizeof asked - 2 * sizeof *asked));
  WANT(asked[0].name_first == 1 && asked[0].name_end == 6);
  WANT(asked[0].request.alignment == 3 && asked[0].request.given == 3);
  WANT(asked[0].request.width == 10 && asked[0].request.precision == 2);
  WANT(asked[1].request.slot == INTERPOLATOR_DEBUG);
  snprintf(printed, sizeof printed, "%*.*f", (int)asked[0].request.width, (int)asked[0].request.precision, 3.14159);
  texts[0].request = asked[0].request;
  texts[0].text = interpolator_string(printed);
  texts[1].request = asked[1].request;
  texts[1].text = interpolator_string("3.14159");
  price = interpolator_lent_texts("price", texts, 2);
  WANT(is_text(formatted("{price:>10.2} {price:?}", &price, 1, NULL, 0), "      3.14 3.14159"));
  WANT(is_missing_trait(formatted("{price}", &price, 1, NULL, 0), INTERPOLATOR_DISPLAY, 6));
  WANT(is_missing_trait(formatted("{price:>10.3}", &price, 1, NULL, 0), INTERPOLATOR_DISPLAY, 12));
  texts[1].text = interpolator_string("\xff");
  WANT(is_fmt(formatted("{price:?}", &price, 1, NULL, 0), 8));
  fill(asked, sizeof asked);
  got = interpolator_arguments("{l:i#({:x})#(, )}", 17, asked, 1);
  WANT(same(got, answer(0, 0, 0, 2, 0, 0)));
  WANT(is_as_before(asked + 1, sizeof asked - sizeof *asked));
  WANT(asked[0].request.slot == INTERPOLATOR_ITER);
  WANT(asked[0].item_first == 6 && asked[0].item_end == 10);
  WANT(asked[0].join_first == 13 && asked[0].join_end == 15);
  fill(asked, sizeof asked);
  got = interpolator_arguments("{a}\xff", 4, asked, 4);
  WANT(same(got, answer(INTERPOLATOR_NOT_UTF8, 0, 0, 0, 0, 0)) && is_as_before(asked, sizeof asked));
}

/* A list, which has texts for its other slots. */
static void lending_lists(void) {
  interpolator_field l = interpolator_list("l", 0, 2), items[2];
  interpolator_lent texts[2];
  interpolator_argument asked[4];
  WANT(interpolator_arguments("{l:?}{l:>9}{l:i(,{})}", 21, asked, 4).length == 4);
  texts[0].request = asked[0].request;
  texts[0].text = interpolator_string("[1, 2]");
  texts[1].request = asked[1].request;
  texts[1].text = interpolator_string("   1 and 2");
  l.lent = texts;
  l.lent_count = 2;
  l.slots = INTERPOLATOR_SLOT_DEBUG | INTERPOLATOR_SLOT_DISPLAY;
  items[0] = interpolator_int("", 1);
  items[1] = interpolator_int("", 2);
  WANT(is_text(formatted("{l:?}{l:>9}{l:i(,{})}", &l, 1, items, 2), "[1, 2]   1 and 2,1,2"));
  WANT(is_missing_trait(formatted("{l}", &l, 1, items, 2), INTERPOLATOR_DISPLAY, 2));
  WANT(is_missing_trait(formatted("{l:x}", &l, 1, items, 2), INTERPOLATOR_LOWER_HEX, 4));
  l.slots = INTERPOLATOR_SLOT_DEBUG; /* the mask says which of the texts count */
  WANT(is_text(formatted("{l:?}", &l, 1, items, 2), "[1, 2]"));
  WANT(is_missing_trait(formatted("{l:>9}", &l, 1, items, 2), INTERPOLATOR_DISPLAY, 5));
}

/* Writes into a room and a second room of these sizes; all behind them is as it was before. */
static interpolator_answer written(const char *format, const interpolator_field *fields, size_t count,
                                   const interpolator_field *items, size_t item_count, size_t room_length,
                                   size_t sentence_length) {
  fill(room, sizeof room);
  fill(sentence, sizeof sentence);
  return interpolator_write(format, strlen(format), fields, count, items, item_count, room, room_length, sentence,
                            sentence_length);
}

/* Whether this is the whole answer, this text is all that the first room has, and this sentence lies in a
 * second room of that size. */
static int is_written(interpolator_answer got, uint32_t code, size_t place, const char *text, const char *says,
                      size_t sentence_length) {
  return same(got, answer(code, 0, place, strlen(text), strlen(says), 0))
      && begins(room, sizeof room, text, strlen(text)) && lies(sentence, sentence_length, says)
      && is_as_before(sentence + sentence_length, sizeof sentence - sentence_length);
}

/* A text of 9 bytes and 7 characters into rooms of every size, with second rooms of every size. */
static void writes(void) {
  static const char text[] = "ab\xC3\xA9" "cd\xC3\xA9!";
  static const char missing[] = "specified value not in context `q` at 12";
  static const size_t places[] = {0, 1, 2, 2, 9, 9, 9, 9, 10};
  interpolator_field f = interpolator_text("name", "cd\xC3\xA9");
  size_t length, says;
  for (says = 0; says < 48; says++)
    for (length = 0; length < 16; length++) {
      char front[sizeof text];
      size_t whole = length == 3 ? 2 : length == 7 ? 6 : length;
      interpolator_answer got = written("ab\xC3\xA9{name}!{q}", &f, 1, NULL, 0, length, says);
      if (length >= sizeof text - 1) {
        WANT(is_written(got, INTERPOLATOR_MISSING_VALUE, 12, text, missing, says));
        continue;
      }
      memcpy(front, text, whole);
      front[whole] = 0;
      WANT(is_written(got, INTERPOLATOR_FULL, places[length], front, sentence_of(INTERPOLATOR_FULL), says));
    }
  WANT(is_written(written("ab{name}", &f, 1, NULL, 0, 6, 9), 0, 0, "abcd\xC3\xA9", "", 9));
  WANT(is_written(written("", &f, 1, NULL, 0, 0, 0), 0, 0, "", "", 0));
  WANT(is_written(written("a\xff", &f, 1, NULL, 0, 9, 9), INTERPOLATOR_NOT_UTF8, 0, "", "not UTF-8", 9));
  WANT(same(interpolator_write("{name}", 6, &f, 1, NULL, 0, NULL, 0, NULL, 0),
            answer(INTERPOLATOR_FULL, 0, 5, 0, 21, 0)));
  f = interpolator_list("name", 0, 1);
  WANT(is_written(written("a{name:i}", &f, 1, NULL, 0, 9, 40), INTERPOLATOR_LISTS, 0, "",
                  sentence_of(INTERPOLATOR_LISTS), 40));
}

/* A list under a width, which has more bytes than the room has left after the text before it. */
static void padded_lists(void) {
  interpolator_field l = interpolator_list("l", 0, 1), item = interpolator_text("", "abcdef");
  WANT(is_written(written("12{l:>7i}", &l, 1, &item, 1, 9, 40), 0, 0, "12 abcdef", "", 40));
  WANT(is_written(written("12{l:>7i}", &l, 1, &item, 1, 7, 40), INTERPOLATOR_NO_MEMORY, 0, "12",
                  sentence_of(INTERPOLATOR_NO_MEMORY), 40));
}

static void checking(void) {
  interpolator_field f[2], item = interpolator_int("", 1);
  interpolator_answer got;
  f[0] = interpolator_text("name", "Ann");
  f[1] = interpolator_list("guests", 0, 1);
  fill(room, sizeof room);
  got = interpolator_check("Dear {name:>8}{guests:i(, {:x})}", 32, f, 2, &item, 1, room, sizeof room);
  WANT(is_text(got, ""));
  got = interpolator_check("{guests:i()({nobody})}", 22, f, 2, &item, 1, room, sizeof room);
  WANT(is_missing_value(got, "nobody", 13)); /* in a join, over one item */
}

/* What does not resemble an example, though its kind is the same: a text that is no UTF-8, a number out of
 * its range, a code that is no character's, and lent texts without one for a request. */
static void what_resembles(void) {
  interpolator_field example = interpolator_text("x", "Ann"), other = example;
  interpolator_lent lent;
  interpolator_argument asked;
  fill(room, sizeof room);
  WANT(is_text(interpolator_check("{x}", 3, &example, 1, NULL, 0, room, sizeof room), ""));
  other.text = interpolator_string("\xff");
  WANT(is_fmt(formatted("{x}", &other, 1, NULL, 0), 2));
  example.kind = other.kind = INTERPOLATOR_SIGNED8;
  fill(room, sizeof room);
  WANT(is_text(interpolator_check("{x:x}", 5, &example, 1, NULL, 0, room, sizeof room), ""));
  other.number = 500;
  WANT(is_fmt(formatted("{x:x}", &other, 1, NULL, 0), 4));
  example.kind = other.kind = INTERPOLATOR_CHARACTER;
  other.natural = 0xD800;
  WANT(is_fmt(formatted("{x}", &other, 1, NULL, 0), 2));
  WANT(interpolator_arguments("{x:>9}", 6, &asked, 1).length == 1);
  lent.request = asked.request;
  lent.text = interpolator_string("12.5");
  example = interpolator_lent_texts("x", &lent, 1);
  other = interpolator_lent_texts("x", NULL, 0);
  fill(room, sizeof room);
  WANT(is_text(interpolator_check("{x:>9}", 6, &example, 1, NULL, 0, room, sizeof room), ""));
  WANT(is_missing_trait(formatted("{x:>9}", &other, 1, NULL, 0), INTERPOLATOR_DISPLAY, 5));
}

/* How formats are broken, by themselves. */
static void broken(void) {
  static const struct {
    const char *format;
    uint32_t detail, number;
    size_t place;
  } all[] = {
      {"a{name", INTERPOLATOR_UNCLOSED, 0, 2},
      {"{x:y}", INTERPOLATOR_EXPECTED_BRACE, 0, 3},
      {"{h:i###a", INTERPOLATOR_EXPECTED_BRACKET, 0, 7},
      {"{x:18446744073709551616}", INTERPOLATOR_BAD_WIDTH, INTERPOLATOR_TOO_GREAT, 3},
      {"{x:.-5}", INTERPOLATOR_BAD_PRECISION, INTERPOLATOR_INVALID_DIGIT, 4},
      {"{x:{<5}", INTERPOLATOR_BAD_FILL, 0, 3},
      {"{q:+i}", INTERPOLATOR_BAD_LIST, 0, 5},
      {"{h:i-9223372036854775809}", INTERPOLATOR_BAD_RANGE, INTERPOLATOR_TOO_SMALL, 4},
  };
  size_t k;
  for (k = 0; k < sizeof all / sizeof *all; k++) {
    interpolator_answer got;
    fill(room, sizeof room);
    got = interpolator_check_alone(all[k].format, strlen(all[k].format), room, sizeof room);
    WANT(same(got, answer(INTERPOLATOR_PARSE, all[k].detail | all[k].number << 4, all[k].place, 0,
                          got.message, 0)));
    WANT(got.message > 27 && memcmp(room, "error while parsing input: ", 27) == 0);
    WANT(is_as_before(room + got.message, sizeof room - got.message));
  }
  fill(room, sizeof room);
  WANT(is_text(interpolator_check_alone("{any:x}{l:i({})}", 16, room, sizeof room), ""));
  WANT(is_fault(interpolator_check_alone("{x:p}", 5, room, sizeof room), INTERPOLATOR_UNSUPPORTED, 0, 3,
                "option `p` is not supported without feature `pointer` at 3"));
  fill(room, sizeof room);
  WANT(is_code(interpolator_check_alone("\xff", 1, room, sizeof room), INTERPOLATOR_NOT_UTF8));
}

/* The calls that have one room, each with a format over fields without items. */
enum call { FORMAT, CHECK, CHECK_ALONE, EXPLAIN, ROWS };

static size_t ends[3];

static interpolator_answer call(enum call of, const char *format, const interpolator_field *fields, size_t count,
                                size_t length) {
  size_t size = strlen(format);
  interpolator_source source = interpolator_whole("f", 1, "{x}", 3);
  fill(room, sizeof room);
  fill(ends, sizeof ends);
  switch (of) {
    case FORMAT: return interpolator_format(format, size, fields, count, NULL, 0, room, length);
    case CHECK: return interpolator_check(format, size, fields, count, NULL, 0, room, length);
    case CHECK_ALONE: return interpolator_check_alone(format, size, room, length);
    case EXPLAIN: return interpolator_explain(&source, format, size, fields, count, NULL, 0, 0, room, length);
    default: return interpolator_rows(format, size, fields, count, NULL, 0, ends, 3, room, length);
  }
}

/* Each code of these calls, into rooms of every size up to past the text or sentence. */
static void rooms(void) {
  static const char value[] = "specified value not in context `x` at 1";
  static const char option[] = "option `p` is not supported without feature `pointer` at 3";
  static const char shown[] = "f:1:2: specified value not in context `x` at 1\n  |\n1 | {x}\n  | ~^~";
  static const struct {
    enum call of;
    const char *format;
    size_t lists; /* how many fields there are: lists that lie past the items */
    uint32_t code;
    size_t place, length;
    const char *text;
  } all[] = {
      {FORMAT, "12{{45", 0, INTERPOLATOR_OK, 0, 5, "12{45"},
      {FORMAT, "{x}", 0, INTERPOLATOR_MISSING_VALUE, 1, 0, value},
      {FORMAT, "{x:p}", 0, INTERPOLATOR_UNSUPPORTED, 3, 0, option},
      {FORMAT, "\xff", 0, INTERPOLATOR_NOT_UTF8, 0, 0, "not UTF-8"},
      {FORMAT, "", 1, INTERPOLATOR_LISTS, 0, 0, "a list lies where it may not"},
      {CHECK, "12{{45", 0, INTERPOLATOR_OK, 0, 0, ""},
      {CHECK, "{x}", 0, INTERPOLATOR_MISSING_VALUE, 1, 0, value},
      {CHECK, "\xff", 0, INTERPOLATOR_NOT_UTF8, 0, 0, "not UTF-8"},
      {CHECK, "", 1, INTERPOLATOR_LISTS, 0, 0, "a list lies where it may not"},
      {CHECK_ALONE, "{x}", 0, INTERPOLATOR_OK, 0, 0, ""},
      {CHECK_ALONE, "{x:p}", 0, INTERPOLATOR_UNSUPPORTED, 3, 0, option},
      {CHECK_ALONE, "\xff", 0, INTERPOLATOR_NOT_UTF8, 0, 0, "not UTF-8"},
      {EXPLAIN, "12{{45", 0, INTERPOLATOR_OK, 0, 0, ""},
      {EXPLAIN, "{x}", 0, INTERPOLATOR_MISSING_VALUE, 1, 0, shown},
      {EXPLAIN, "\xff", 0, INTERPOLATOR_NOT_UTF8, 0, 0, "not UTF-8"},
      {EXPLAIN, "", 1, INTERPOLATOR_LISTS, 0, 0, "a list lies where it may not"},
      {ROWS, "{x}", 0, INTERPOLATOR_MISSING_VALUE, 1, 0, value},
      {ROWS, "\xff", 0, INTERPOLATOR_NOT_UTF8, 0, 0, "not UTF-8"},
      {ROWS, "", 1, INTERPOLATOR_LISTS, 0, 0, "a list lies where it may not"},
  };
  interpolator_field list = interpolator_list("l", 3, 9), text = interpolator_text("l", "");
  size_t k, length;
  for (k = 0; k < sizeof all / sizeof *all; k++)
    for (length = 0; length < 80; length++) {
      interpolator_answer got = call(all[k].of, all[k].format, &list, all[k].lists, length);
      size_t message = all[k].code == INTERPOLATOR_OK ? 0 : strlen(all[k].text);
      WANT(same(got, answer(all[k].code, 0, all[k].place, all[k].length, message, 0)));
      WANT(lies(room, length, all[k].text) && is_as_before(room + length, sizeof room - length));
      WANT(is_as_before(ends, sizeof ends));
      got = call(ROWS, "", &text, 1, length); /* three rows of one column, and no cell */
      WANT(same(got, answer(INTERPOLATOR_TABLE, 0, 0, 0, 39, 0)));
      WANT(lies(room, length, sentence_of(INTERPOLATOR_TABLE)));
      WANT(is_as_before(room + length, sizeof room - length));
      WANT(is_as_before(ends, sizeof ends));
    }
}

/* All faults of a format, and how a compiler shows each. */
static void faults(void) {
  static const char line[] = "bye = Hello {nane}, {name:x}{name:?!";
  interpolator_source source = {{"messages.txt", 12}, {line, sizeof line - 1}, 7, 6};
  const char *format = line + 6;
  size_t length = sizeof line - 7;
  interpolator_field f = interpolator_text("name", "Ann"), list = interpolator_list("l", 0, 1);
  interpolator_fault all[4];
  interpolator_answer got;
  fill(all, sizeof all);
  got = interpolator_faults(format, length, &f, 1, NULL, 0, all, 4);
  WANT(same(got, answer(INTERPOLATOR_OK, 0, 0, 3, 0, 0)) && is_as_before(all + 3, sizeof *all));
  WANT(all[0].code == INTERPOLATOR_MISSING_VALUE && all[0].detail == 0 && all[0].place == 7);
  WANT(all[1].code == INTERPOLATOR_MISSING_TRAIT && all[1].detail == INTERPOLATOR_LOWER_HEX && all[1].place == 21);
  WANT(all[2].code == INTERPOLATOR_PARSE && all[2].detail == INTERPOLATOR_EXPECTED_BRACE && all[2].place == 29);
  fill(all, sizeof all);
  got = interpolator_faults(format, length, &f, 1, NULL, 0, all, 1);
  WANT(same(got, answer(INTERPOLATOR_OK, 0, 0, 3, 0, 0)) && is_as_before(all + 1, 3 * sizeof *all));
  got = interpolator_faults("Hello {name}", 12, &f, 1, NULL, 0, NULL, 0);
  WANT(same(got, answer(INTERPOLATOR_OK, 0, 0, 0, 0, 0)));
  fill(all, sizeof all);
  got = interpolator_faults("\xff", 1, &f, 1, NULL, 0, all, 4);
  WANT(same(got, answer(INTERPOLATOR_NOT_UTF8, 0, 0, 0, 0, 0)) && is_as_before(all, sizeof all));
  got = interpolator_faults("{x}", 3, &list, 1, NULL, 0, all, 4);
  WANT(same(got, answer(INTERPOLATOR_LISTS, 0, 0, 0, 0, 0)) && is_as_before(all, sizeof all));
  fill(room, sizeof room);
  got = interpolator_explain(&source, format, length, &f, 1, NULL, 0, 1, room, sizeof room);
  WANT(is_fault(got, INTERPOLATOR_MISSING_TRAIT, INTERPOLATOR_LOWER_HEX, 21,
                "messages.txt:7:28: trait `LowerHex` not implemented, used by format argument at 21 "
                "(byte 21 of the format)\n"
                "  |\n7 | bye = Hello {nane}, {name:x}{name:?!\n  |                     ~~~~~~~^"));
  fill(room, sizeof room);
  got = interpolator_explain(&source, format, length, &f, 1, NULL, 0, 3, room, sizeof room);
  WANT(is_text(got, ""));
  source.name = interpolator_string("\xff");
  got = interpolator_explain(&source, format, length, &f, 1, NULL, 0, 0, room, sizeof room);
  WANT(is_code(got, INTERPOLATOR_NOT_UTF8));
  source = interpolator_whole("messages.txt", 7, "\xff", 1);
  fill(room, sizeof room);
  got = interpolator_explain(&source, format, length, &f, 1, NULL, 0, 0, room, sizeof room);
  WANT(is_code(got, INTERPOLATOR_NOT_UTF8));
  source = interpolator_whole("messages.txt", 7, "Hello\n{name:x}!", 15);
  fill(room, sizeof room);
  got = interpolator_explain(&source, "Hello\n{name:x}!", 15, &f, 1, NULL, 0, 0, room, sizeof room);
  WANT(is_fault(got, INTERPOLATOR_MISSING_TRAIT, INTERPOLATOR_LOWER_HEX, 13,
                "messages.txt:8:8: trait `LowerHex` not implemented, used by format argument at 13\n"
                "  |\n8 | {name:x}!\n  | ~~~~~~~^"));
}

static int is_cost(interpolator_cost_answer got, uint32_t code, size_t characters, size_t pieces, size_t buffered) {
  return got.code == code && got.detail == 0 && got.characters == characters && got.pieces == pieces
      && got.buffered == buffered;
}

static void costs(void) {
  WANT(is_cost(interpolator_cost("{l:i({:?})(, )}", 15, 10, 3), INTERPOLATOR_OK, 190, 6, 0));
  WANT(is_cost(interpolator_cost("\xff", 1, 1, 1), INTERPOLATOR_NOT_UTF8, 0, 0, 0));
}

static void tables(void) {
  static const char value[] = "error while formatting at 5: an error occurred when formatting an argument";
  interpolator_field columns[2], cells[6];
  interpolator_answer got;
  columns[0] = interpolator_text("name", "");
  columns[1] = interpolator_int("n", 0);
  cells[0] = interpolator_text("", "Ann");
  cells[1] = interpolator_int("", 1);
  cells[2] = interpolator_text("", "");
  cells[3] = interpolator_int("", -2);
  cells[4] = interpolator_text("", "\xC3\xA9");
  cells[5] = interpolator_int("", 300);
  fill(room, sizeof room);
  got = interpolator_rows("{name}={n:>3};", 14, columns, 2, cells, 6, ends, 3, room, sizeof room);
  WANT(is_text(got, "Ann=  1;= -2;\xC3\xA9=300;"));
  WANT(ends[0] == 8 && ends[1] == 13 && ends[2] == 20);
  fill(room, sizeof room);
  got = interpolator_rows("{name}={n:>3};", 14, columns, 2, cells, 6, ends, 3, room, 19);
  WANT(same(got, answer(0, 0, 0, 20, 0, 0)) && is_as_before(room, sizeof room) && ends[2] == 20);
  fill(ends, sizeof ends);
  got = interpolator_rows("{name}", 6, columns, 2, cells, 5, ends, 3, room, sizeof room);
  WANT(is_code(got, INTERPOLATOR_TABLE) && is_as_before(ends, sizeof ends));
  fill(room, sizeof room);
  got = interpolator_rows("{name}{q}", 9, columns, 2, cells, 6, ends, 3, room, sizeof room);
  WANT(is_missing_value(got, "q", 7) && is_as_before(ends, sizeof ends));
  cells[2].text = interpolator_string("\xff");
  fill(room, sizeof room);
  got = interpolator_rows("{name}", 6, columns, 2, cells, 6, ends, 3, room, sizeof room);
  WANT(same(got, answer(INTERPOLATOR_FMT, 0, 5, 0, sizeof value - 1, 1)) && lies(room, sizeof room, value));
  WANT(ends[0] == 3 && is_as_before(ends + 1, sizeof ends - sizeof *ends));
  fill(ends, sizeof ends);
  fill(room, sizeof room);
  columns[1].name = interpolator_string("\xff");
  got = interpolator_rows("{name}", 6, columns, 2, cells, 6, ends, 3, room, sizeof room);
  WANT(is_code(got, INTERPOLATOR_NOT_UTF8) && is_as_before(ends, sizeof ends));
  fill(room, sizeof room);
  got = interpolator_rows("x", 1, NULL, 0, NULL, 0, ends, 3, room, sizeof room);
  WANT(is_text(got, "xxx") && ends[0] == 1 && ends[1] == 2 && ends[2] == 3);
}

/* What the escapes write of these values, and where they do not let one stand: rows of
 * crates/interpolator_tests/src/escaped.rt. */
static const struct {
  uint32_t escape;
  const char *format, *text;
} escaped_rows[] = {
    {INTERPOLATOR_ESCAPE_HTML, "<p title=\"{a}\">{b}</p>", "<p title=\"&lt;&amp;&gt;&quot;x\">it&#39;s</p>"},
    {INTERPOLATOR_ESCAPE_HTML, "{a:<^9}{n:&>4}", "&lt;&lt;&lt;&amp;&gt;&quot;x&lt;&lt;&amp;&amp;-7"},
    {INTERPOLATOR_ESCAPE_HTML, "{l:i(<b>{}</b>)(, )}{l:i}", "<b>&lt;</b>, <b>&quot;</b>&lt;&quot;"},
    {INTERPOLATOR_ESCAPE_CSV, "\"{a:.4}\",\"{a:>6}\"", "\"<&>\"\"\",\" <&>\"\"x\""},
    {INTERPOLATOR_ESCAPE_JSON, "{{\"a\": \"{a}\", \"b\": \"{b}\"}}",
     "{\"a\": \"\\u003c&>\\\"x\", \"b\": \"it's\"}"},
    {INTERPOLATOR_ESCAPE_JSON, "\"{c}{n}\"", "\"\\t\\\\-7\""},
    {INTERPOLATOR_ESCAPE_JSON, "[{a:?}, {n:?}]", "[\"\\u003c&>\\\"x\", -7]"},
    {INTERPOLATOR_ESCAPE_SHELL, "echo '{b}' -- '{c}'", "echo 'it'\\''s' -- '\t\\'"},
    {INTERPOLATOR_ESCAPE_LINE, "{a} {b} {c}", "<&>\"x it's \\t\\\\"},
    {INTERPOLATOR_ESCAPE_NONE, "<p id={a}>{c}", "<p id=<&>\"x>\t\\"},
};
static const struct {
  uint32_t escape;
  const char *format;
  size_t place;
  uint32_t why;
} misplaced_rows[] = {
    {INTERPOLATOR_ESCAPE_HTML, "<p id={a}>", 6, INTERPOLATOR_MISPLACED_VALUE},
    {INTERPOLATOR_ESCAPE_HTML, "{l:i(<b>{}</b)}", 0, INTERPOLATOR_MISPLACED_ITEM},
    {INTERPOLATOR_ESCAPE_HTML, "{l:i({})(<br)}", 0, INTERPOLATOR_MISPLACED_JOIN},
    {INTERPOLATOR_ESCAPE_CSV, "\"{a}\",{n}", 6, INTERPOLATOR_MISPLACED_VALUE},
    {INTERPOLATOR_ESCAPE_JSON, "{{\"n\": {n}}}", 7, INTERPOLATOR_MISPLACED_VALUE},
    {INTERPOLATOR_ESCAPE_JSON, "\"{a:?}\"", 1, INTERPOLATOR_MISPLACED_VALUE},
    {INTERPOLATOR_ESCAPE_SHELL, "echo {b}", 5, INTERPOLATOR_MISPLACED_VALUE},
    {INTERPOLATOR_ESCAPE_LINE, "{a}{l:\t>9i({})}", 3, INTERPOLATOR_MISPLACED_FILL},
};

static interpolator_field escaped_fields[5], escaped_items[2];

static interpolator_answer escaped(uint32_t escape, const char *format, size_t size) {
  fill(room, sizeof room);
  return interpolator_escaped(escape, format, strlen(format), escaped_fields, 5, escaped_items, 2, room, size);
}

static void escapes(void) {
  static const char *const whys[] = {
      "", "this value is out of place", "an item of this list ends elsewhere than it began",
      "what is between two items of this list ends elsewhere than it began",
      "the character that pads this list is structure"};
  size_t k;
  escaped_items[0] = interpolator_text("", "<");
  escaped_items[1] = interpolator_text("", "\"");
  escaped_fields[0] = interpolator_text("a", "<&>\"x");
  escaped_fields[1] = interpolator_text("b", "it's");
  escaped_fields[2] = interpolator_text("c", "\t\\");
  escaped_fields[3] = interpolator_int("n", -7);
  escaped_fields[4] = interpolator_list("l", 0, 2);
  for (k = 0; k < sizeof escaped_rows / sizeof *escaped_rows; k++) {
    const char *format = escaped_rows[k].format, *text = escaped_rows[k].text;
    WANT(is_text(escaped(escaped_rows[k].escape, format, sizeof room), text));
    WANT(same(escaped(escaped_rows[k].escape, format, 3), answer(INTERPOLATOR_OK, 0, 0, strlen(text), 0, 0)));
    WANT(is_as_before(room, sizeof room));
  }
  for (k = 0; k < sizeof misplaced_rows / sizeof *misplaced_rows; k++) {
    uint32_t escape = misplaced_rows[k].escape, why = misplaced_rows[k].why;
    WANT(is_fault(escaped(escape, misplaced_rows[k].format, sizeof room), INTERPOLATOR_MISPLACED, why,
                  misplaced_rows[k].place, whys[why]));
  }
  WANT(is_code(escaped(6, "<p id={a}>", sizeof room), INTERPOLATOR_NO_ESCAPE));
  WANT(is_code(escaped(UINT32_MAX, "\xff", sizeof room), INTERPOLATOR_NO_ESCAPE));
  WANT(is_code(escaped(INTERPOLATOR_ESCAPE_HTML, "\xff", sizeof room), INTERPOLATOR_NOT_UTF8));
  WANT(is_missing_value(escaped(INTERPOLATOR_ESCAPE_HTML, "<b>{q}</b>", sizeof room), "q", 4));
  WANT(is_fault(escaped(INTERPOLATOR_ESCAPE_HTML, "{q}<p id={a}>", sizeof room), INTERPOLATOR_MISPLACED,
                INTERPOLATOR_MISPLACED_VALUE, 9, whys[1]));
  escaped_fields[4].end = 3;
  WANT(is_code(escaped(INTERPOLATOR_ESCAPE_HTML, "{a}", sizeof room), INTERPOLATOR_LISTS));
}

int main(void) {
  WANT(interpolator_agrees());
  texts();
  kinds();
  slots();
  lists();
  depths();
  lent();
  lending_lists();
  writes();
  padded_lists();
  checking();
  what_resembles();
  broken();
  rooms();
  faults();
  costs();
  tables();
  escapes();
  printf("calls: %lu checks, %lu failed\n", checks, failures);
  return failures != 0;
}
