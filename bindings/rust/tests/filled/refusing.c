/* Memory for the library in place of malloc, realloc and free, which it calls by these names once
 * run-tests.sh has renamed them in a copy of it: one allocation is refused, or all from it on. */
#include <stdlib.h>

static long asked, live, first_refused = -1;
static int and_later;

/* Counts allocations anew, and refuses the one of this number, counted from 0, or none for -1. */
void refusing_from(long first, int all_later) {
  asked = 0;
  first_refused = first;
  and_later = all_later;
}

/* How many allocations were asked for since then. */
long refusing_asked(void) { return asked; }

/* How many blocks the library has that it has not given back. */
long refusing_live(void) { return live; }

static int refuses(void) {
  long number = asked++;
  return first_refused >= 0 && (number == first_refused || (and_later && number > first_refused));
}

void *refusing_malloc(size_t size) {
  void *at = refuses() ? NULL : malloc(size);
  live += at != NULL;
  return at;
}

void *refusing_realloc(void *at, size_t size) { return refuses() ? NULL : realloc(at, size); }

void refusing_free(void *at) {
  live -= at != NULL;
  free(at);
}
