/* A log line of five names, so many times: run it under callgrind with two counts, and divide the
 * difference of instructions by that of the counts, and for `rows` by the rows of a table too.
 *
 *   bench format|write|rows|snprintf COUNT */
#include "interpolator.h"
#include <stdio.h>
#include <stdlib.h>

enum { NAMES = 5, ROWS = 100 };

static const char line[] = "{time} {level} [{module}] {message} (line {line})";

static char room[1 << 16];
static size_t ends[ROWS];
static interpolator_field fields[NAMES];
static interpolator_field cells[NAMES * ROWS];

static void row(interpolator_field *to) {
  to[0] = interpolator_text("time", "2024-05-17T12:34:56Z");
  to[1] = interpolator_text("level", "INFO");
  to[2] = interpolator_text("module", "store::index");
  to[3] = interpolator_text("message", "rebuilt the index of all orders");
  to[4] = interpolator_uint64("line", 217);
}

static interpolator_answer by_format(void) {
  return interpolator_format(line, sizeof line - 1, fields, NAMES, NULL, 0, room, sizeof room);
}

static interpolator_answer by_write(void) {
  return interpolator_write(line, sizeof line - 1, fields, NAMES, NULL, 0, room, sizeof room, NULL, 0);
}

static interpolator_answer by_rows(void) {
  return interpolator_rows(line, sizeof line - 1, fields, NAMES, cells, NAMES * ROWS, ends, ROWS, room, sizeof room);
}

static interpolator_answer by_snprintf(void) {
  interpolator_answer got = {0, 0, 0, 0, 0, 0};
  got.length = (size_t)snprintf(room, sizeof room, "%s %s [%s] %s (line %u)", fields[0].text.at,
                                fields[1].text.at, fields[2].text.at, fields[3].text.at, 217u);
  return got;
}

static const struct {
  const char *name;
  interpolator_answer (*make)(void);
} works[] = {
    {"format", by_format}, {"write", by_write}, {"rows", by_rows}, {"snprintf", by_snprintf}};

int main(int words, char **word) {
  size_t work, k;
  row(fields);
  for (k = 0; k < ROWS; k++) row(cells + NAMES * k);
  for (work = 0; work < sizeof works / sizeof *works; work++) {
    interpolator_answer got = {0, 0, 0, 0, 0, 0};
    size_t count = words > 2 ? strtoul(word[2], NULL, 10) : 1;
    if (words > 1 && strcmp(word[1], works[work].name)) continue;
    for (k = 0; k < count; k++) got = works[work].make();
    printf("%s: code %u, %lu bytes: %.83s\n", works[work].name, got.code, (unsigned long)got.length, room);
    if (got.code) return 1;
  }
  return 0;
}
