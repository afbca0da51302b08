/* interpolator_explain_all shows what interpolator_explain does, fault by fault, of formats put
 * together by chance in texts by chance; and many faults of one line in time linear in them.
 *
 *   pictures COUNT */
#include "interpolator_pictures.h"
#include <stdio.h>
#include <stdlib.h>

enum { MANY = 20000, LONGEST = 1 << 14 };

/* Arguments with and without faults, some of them broken, and what is between. */
static const char *const parts[] = {
    "{nobody}", "{a:x}", "{ a :e}", "{a}", "{l:i({:x}{nobody})(, )}", "{l:i#({:i({})}{a:x})#({nobody})}",
    "{l:i({})}", "{l}", "{b\n}", "{\xE2\x80\xAE" "c\t:>5}", "{a at 7}", "{d \xC3\xA9: (byte 1 of the format)}",
    "{a:q}", "{a:>", "{a:99999999999999999999}", "{l:+i}", "{l:i-}", "{a:p}", "{l:i({:x)}", "{l:i#({a}",
    "{", "}", "{{", "}}", "{}", "\r\n", "\xC3\xA9 ", "(", ")", "text", "\n", "\t",
    "more than a hundred and twenty characters, so that a line is cut around the argument that has the "
    "fault, at its end and at its beginning"};

static uint64_t state = 1;
static unsigned long pictures, failures;
static interpolator_field fields[2], items[2];

static size_t below(size_t bound) {
  state = state * 6364136223846793005u + 1442695040888963407u;
  return (size_t)(state >> 33) % bound;
}

/* A few parts, or in a row many of a few. */
static size_t put_together(char *text, size_t count) {
  size_t length = 0;
  for (; count; count--) {
    const char *part = parts[below(sizeof parts / sizeof *parts)];
    if (below(2)) part = parts[below(4)];
    if (length + strlen(part) > LONGEST) break;
    memcpy(text + length, part, strlen(part));
    length += strlen(part);
  }
  return length;
}

/* What is compared, and which fault comes next. */
typedef struct {
  const interpolator_source *source;
  const char *format;
  size_t length, next;
} comparison;

static int is_same(void *with, const interpolator_fault *fault, const char *picture, size_t length) {
  static char room[4 * LONGEST];
  comparison *now = (comparison *)with;
  interpolator_answer got = interpolator_explain(now->source, now->format, now->length, fields, 2, items, 2,
                                                 now->next++, room, sizeof room);
  pictures++;
  if (got.code == fault->code && got.detail == fault->detail && got.place == fault->place
      && got.message == length && length <= sizeof room && memcmp(room, picture, length) == 0)
    return 0;
  if (failures++ < 5)
    printf("FAILED: %.*s\nof %.*s\n%.*s\nis not %.*s\n", (int)now->length, now->format,
           (int)now->source->text.length, now->source->text.at, (int)length, picture, (int)got.message, room);
  return 1;
}

static void compare(void) {
  static char text[3 * LONGEST];
  size_t before = below(3) ? put_together(text, below(8)) : 0, length, all;
  interpolator_source source = interpolator_whole("a: 7: ", below(40), text, 0);
  comparison now;
  interpolator_answer got, count;
  length = put_together(text + before, below(9) ? below(12) : 150);
  all = before + length + put_together(text + before + length, below(4));
  source.text.length = all;
  /* seldom it is not where the source says, or the text is not UTF-8 */
  source.start = below(20) ? before : below(all + 9);
  if (!below(20) && all) text[below(all)] = '\xff';
  now.source = &source;
  now.format = text + before;
  now.length = length;
  now.next = 0;
  count = interpolator_faults(text + before, length, fields, 2, items, 2, NULL, 0);
  got = interpolator_explain_all(&source, text + before, length, fields, 2, items, 2, is_same, &now);
  if (got.code == INTERPOLATOR_OK && got.length == count.length && now.next == count.length) return;
  if (got.code != INTERPOLATOR_OK && now.next == 0
      && (!count.length
          || interpolator_explain(&source, text + before, length, fields, 2, items, 2, 0, NULL, 0).code
                 == got.code))
    return;
  failures++;
  printf("FAILED: code %u, %lu pictures of %lu\n", got.code, (unsigned long)now.next,
         (unsigned long)count.length);
}

static int sum(void *with, const interpolator_fault *fault, const char *picture, size_t length) {
  size_t *sums = (size_t *)with;
  (void)picture;
  sums[0] += fault->place == 8 * sums[0] + 1;
  sums[1] += length;
  return 0;
}

/* Many faults in one line: by interpolator_explain that would take minutes. */
static void shows_many(void) {
  char *format = (char *)malloc(8 * MANY);
  interpolator_source source = interpolator_whole("f", 1, format, 8 * MANY);
  size_t sums[2] = {0, 0}, k;
  interpolator_answer got;
  if (!format) exit(2);
  for (k = 0; k < MANY; k++) memcpy(format + 8 * k, "{nobody}", 8);
  got = interpolator_explain_all(&source, format, 8 * MANY, fields, 2, items, 2, sum, sums);
  printf("pictures: %lu of one line, %lu bytes\n", (unsigned long)sums[0], (unsigned long)sums[1]);
  failures += got.code != INTERPOLATOR_OK || got.length != MANY || sums[0] != MANY;
  free(format);
}

int main(int words, char **word) {
  size_t count = words > 1 ? (size_t)strtoul(word[1], NULL, 10) : 10000;
  items[0] = interpolator_text("", "x");
  items[1] = interpolator_int("", 7);
  fields[0] = interpolator_text("a", "Ann");
  fields[1] = interpolator_list("l", 0, 2);
  for (; count; count--) compare();
  shows_many();
  printf("pictures: %lu compared, %lu failed\n", pictures, failures);
  return failures != 0;
}
