/* A catalogue of messages, one format a line of a file: each is checked when it is loaded, against
 * an example of the values that it will be used with. So a translation cannot fail later.
 *
 *   catalogue FILE NAME CENTS
 *
 * The values are `name`, `count` (the number of cents) and `total` (the amount, as 12.50).
 *
 * Who writes a file of messages is not trusted: a line may be of any length and of any bytes, and a
 * format that could write more than MOST characters (a width may be any number) is refused.
 *
 * The status is 0 if all messages were written, 1 if a line has a fault, and 2 if the file cannot
 * be read, the messages cannot be written, or there is no memory. */
#include "interpolator.h"
#include <stdio.h>
#include <stdlib.h>

enum { MOST = 1000000 };

/* Memory of the program, which is enlarged when a call says how much it needs. */
typedef struct {
  char *at;
  size_t size;
} buffer;

static void no_memory(void) {
  fprintf(stderr, "catalogue: out of memory\n");
  exit(2);
}

static void enlarge(buffer *room, size_t size) {
  char *at = (char *)realloc(room->at, size);
  if (!at) no_memory();
  room->at = at;
  room->size = size;
}

/* All bytes of a file. */
static size_t read_all(FILE *file, buffer *text) {
  size_t length = 0;
  for (;;) {
    size_t got;
    if (length == text->size) enlarge(text, length + length / 2 + 4096);
    got = fread(text->at + length, 1, text->size - length, file);
    if (got == 0) return length;
    length += got;
  }
}

/* Makes the values of a message. */
static void fill(interpolator_field *fields, const char *name, int cents) {
  fields[0] = interpolator_text("name", name);
  fields[1] = interpolator_int("count", cents);
  fields[2] = interpolator_decimal("total", cents, 2);
}

/* Whether a line has no fault over the example: the first one is shown. */
static int holds(const interpolator_source *source, const interpolator_field *example,
                 buffer *room) {
  for (;;) {
    interpolator_answer got =
        interpolator_explain(source, source->text.at, source->text.length, example, 3, NULL, 0, 0,
                             room->at, room->size);
    if (got.code == INTERPOLATOR_OK) return 1;
    if (got.code == INTERPOLATOR_NO_MEMORY) no_memory();
    if (got.message > room->size) {
      enlarge(room, got.message);
      continue;
    }
    if (got.code > INTERPOLATOR_UNSUPPORTED) /* a sentence alone */
      fprintf(stderr, "%s:%lu: ", source->name.at, (unsigned long)source->first_line);
    fwrite(room->at, 1, got.message, stderr);
    putc('\n', stderr);
    return 0;
  }
}

/* Whether a line writes no more than MOST characters, of texts that are not longer than `longest`.
 */
static int is_short(const interpolator_source *source, size_t longest) {
  interpolator_cost_answer cost =
      interpolator_cost(source->text.at, source->text.length, longest, 0);
  if (cost.code == INTERPOLATOR_NO_MEMORY) no_memory();
  if (cost.characters <= MOST) return 1;
  fprintf(stderr, "%s:%lu: it could write more than %d characters\n", source->name.at,
          (unsigned long)source->first_line, MOST);
  return 0;
}

/* Writes a message that was checked. */
static int write_message(const interpolator_source *source, const interpolator_field *fields,
                         buffer *room) {
  for (;;) {
    interpolator_answer got = interpolator_format(source->text.at, source->text.length, fields, 3,
                                                  NULL, 0, room->at, room->size);
    size_t length = got.code == INTERPOLATOR_OK ? got.length : got.message;
    if (got.code == INTERPOLATOR_NO_MEMORY) no_memory();
    if (length > room->size) {
      enlarge(room, length);
      continue;
    }
    /* a fault that the example does not make: a name on the command line that is not UTF-8 */
    fwrite(room->at, 1, length, got.code == INTERPOLATOR_OK ? stdout : stderr);
    putc('\n', got.code == INTERPOLATOR_OK ? stdout : stderr);
    return got.code == INTERPOLATOR_OK;
  }
}

/* Checks a line and writes its message. */
static int serve(const interpolator_source *line, const char *name, int cents, buffer *room) {
  interpolator_field example[3], values[3];
  if (!is_short(line, strlen(name) + 40)) return 0; /* a total has at most 12 digits */
  fill(example, "Ann", 1250);
  fill(values, name, cents);
  return holds(line, example, room) && write_message(line, values, room);
}

int main(int words, char **word) {
  buffer text = {NULL, 0}, room = {NULL, 0};
  size_t length, at = 0, number = 0, wrong = 0;
  FILE *file = words == 4 ? fopen(word[1], "rb") : NULL;
  if (!file) return fprintf(stderr, "usage: catalogue FILE NAME CENTS\n"), 2;
  length = read_all(file, &text);
  enlarge(&room, 4096);
  while (at < length) {
    const char *line = text.at + at, *end = (const char *)memchr(line, '\n', length - at);
    size_t bytes = end ? (size_t)(end - line) : length - at;
    interpolator_source source = interpolator_whole(word[1], ++number, line, bytes);
    if (!serve(&source, word[2], atoi(word[3]), &room)) wrong++;
    at += bytes + 1;
  }
  free(text.at);
  free(room.at);
  if (ferror(file) || fclose(file) != 0 || fflush(stdout) != 0) return perror("catalogue"), 2;
  return wrong != 0;
}
