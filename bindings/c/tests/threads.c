/* Eight threads make each call at the same time, by the shared object, on stacks of 256 KiB. */
#include "interpolator.h"
#include <pthread.h>
#include <stdio.h>
#include <stdlib.h>

enum { THREADS = 8, TIMES = 500 };

static const char format[] = "thread {thread}, call {l:i-1..({:>5})}: [{l:i({})(|)}] {half:.1}";
static const char faulty[] = "{thread} {nobody} {thread:y}";

/* What a thread calls with. */
typedef struct {
  interpolator_field fields[3], items[3];
} row;

static void fill(row *of, int number, int call) {
  of->fields[0] = interpolator_int("thread", number);
  of->fields[1] = interpolator_list("l", 0, 2);
  of->fields[2] = interpolator_double("half", number + .5);
  of->items[0] = interpolator_int("", number);
  of->items[1] = interpolator_int("", call);
  of->items[2] = interpolator_int("", 0);
}

static int is_text(interpolator_answer got, const char *room, const char *text) {
  return got.code == INTERPOLATOR_OK && got.length == strlen(text)
         && memcmp(room, text, got.length) == 0;
}

static int is_fault(interpolator_answer got, const char *room, const char *says) {
  return got.code == INTERPOLATOR_MISSING_VALUE && got.place == 10 && got.message == strlen(says)
         && memcmp(room, says, got.message) == 0;
}

static int writes(const row *of, const char *wanted) {
  char room[256];
  return is_text(interpolator_format(format, sizeof format - 1, of->fields, 3, of->items, 3, room,
                                     sizeof room),
                 room, wanted)
         && is_text(interpolator_write(format, sizeof format - 1, of->fields, 3, of->items, 3, room,
                                       sizeof room, NULL, 0),
                    room, wanted);
}

static int finds_faults(const row *of) {
  static const char sentence[] = "specified value not in context `nobody` at 10";
  char room[256], picture[256];
  interpolator_fault found[3];
  interpolator_source source = interpolator_whole("f", 1, faulty, sizeof faulty - 1);
  interpolator_answer got = interpolator_check(faulty, sizeof faulty - 1, of->fields, 3, of->items,
                                               3, room, sizeof room);
  if (!is_fault(got, room, sentence)) return 0;
  got = interpolator_faults(faulty, sizeof faulty - 1, of->fields, 3, of->items, 3, found, 3);
  if (got.code != INTERPOLATOR_OK || got.length != 2 || found[1].place != 26) return 0;
  sprintf(picture, "f:1:11: %s\n  |\n1 | %s\n  |          ~^~~~~~~", sentence, faulty);
  got = interpolator_explain(&source, faulty, sizeof faulty - 1, of->fields, 3, of->items, 3, 0,
                             room, sizeof room);
  return is_fault(got, room, picture)
         && interpolator_check_alone(faulty, sizeof faulty - 1, NULL, 0).place == 26
         && interpolator_cost(format, sizeof format - 1, 9, 2).code == INTERPOLATOR_OK;
}

static int escapes(const row *of, int number) {
  static const char page[] = "<i>{thread:<}</i>{name}", tag[] = "<i {thread}>";
  interpolator_field fields[2];
  interpolator_argument found[2];
  interpolator_answer got;
  char room[64], wanted[64];
  fields[0] = of->fields[0];
  fields[1] = interpolator_text("name", "<&>");
  sprintf(wanted, "<i>%d</i>&lt;&amp;&gt;", number);
  got = interpolator_escaped(INTERPOLATOR_ESCAPE_HTML, page, sizeof page - 1, fields, 2, NULL, 0, room,
                             sizeof room);
  if (!is_text(got, room, wanted)) return 0;
  got = interpolator_escaped(INTERPOLATOR_ESCAPE_HTML, tag, sizeof tag - 1, fields, 2, NULL, 0, room,
                             sizeof room);
  if (got.code != INTERPOLATOR_MISPLACED || got.place != 3) return 0;
  got = interpolator_arguments(page, sizeof page - 1, found, 2);
  return got.length == 2 && found[1].name_first == 18 && found[0].request.alignment == 1;
}

static int writes_a_table(int number, int call) {
  interpolator_field columns[1], cells[2];
  char room[64], wanted[64];
  size_t ends[2];
  columns[0] = interpolator_int("n", 0);
  cells[0] = interpolator_int("", number);
  cells[1] = interpolator_int("", call);
  sprintf(wanted, "<%4d><%4d>", number, call);
  return is_text(interpolator_rows("<{n:4}>", 7, columns, 1, cells, 2, ends, 2, room, sizeof room),
                 room, wanted)
         && ends[0] == 6 && ends[1] == 12;
}

static void *run(void *given) {
  int number = *(int *)given, k;
  size_t *wrong = (size_t *)calloc(1, sizeof *wrong);
  for (k = 0; k < TIMES; k++) {
    row of;
    char wanted[256];
    snprintf(wanted, sizeof wanted, "thread %d, call %5d: [%d|%d] %d.5", number, k, number, k,
             number);
    fill(&of, number, k);
    if (!writes(&of, wanted) || !finds_faults(&of) || !escapes(&of, number)
        || !writes_a_table(number, k))
      ++*wrong;
  }
  return wrong;
}

int main(void) {
  pthread_t threads[THREADS];
  pthread_attr_t stack;
  int numbers[THREADS], k;
  size_t wrong = 0;
  pthread_attr_init(&stack);
  pthread_attr_setstacksize(&stack, 256 * 1024);
  for (k = 0; k < THREADS; k++) {
    numbers[k] = k;
    if (pthread_create(&threads[k], &stack, run, &numbers[k])) return 2;
  }
  for (k = 0; k < THREADS; k++) {
    void *of;
    pthread_join(threads[k], &of);
    wrong += *(size_t *)of;
    free(of);
  }
  pthread_attr_destroy(&stack);
  printf("threads: each call %d times in %d threads, %lu wrong\n", TIMES, THREADS,
         (unsigned long)wrong);
  return wrong != 0;
}
