/* The sizes of the structs, the offsets of their members, and numbers, which programs are compiled
 * with: they may not change in a library of the same soname. */
#include "interpolator.h"
#include <stdio.h>

#define SIZE(type, size)                                                                           \
  { #type, sizeof(type), size }
#define AT(type, member, offset)                                                                   \
  { #type "." #member, offsetof(type, member), offset }
#define NUMBER(constant, number)                                                                   \
  { #constant, constant, number }

static const struct {
  const char *name;
  size_t is, was;
} all[] = {
    SIZE(interpolator_bytes, 16),
    AT(interpolator_bytes, at, 0),
    AT(interpolator_bytes, length, 8),
    SIZE(interpolator_request, 48),
    AT(interpolator_request, slot, 0),
    AT(interpolator_request, fill, 4),
    AT(interpolator_request, alignment, 8),
    AT(interpolator_request, sign, 12),
    AT(interpolator_request, alternate, 16),
    AT(interpolator_request, zero, 20),
    AT(interpolator_request, hex_debug, 24),
    AT(interpolator_request, given, 28),
    AT(interpolator_request, width, 32),
    AT(interpolator_request, precision, 40),
    SIZE(interpolator_lent, 64),
    AT(interpolator_lent, request, 0),
    AT(interpolator_lent, text, 48),
    SIZE(interpolator_field, 112),
    AT(interpolator_field, name, 0),
    AT(interpolator_field, text, 16),
    AT(interpolator_field, lent, 32),
    AT(interpolator_field, lent_count, 40),
    AT(interpolator_field, kind, 48),
    AT(interpolator_field, slots, 52),
    AT(interpolator_field, number, 56),
    AT(interpolator_field, natural, 64),
    AT(interpolator_field, upper, 72),
    AT(interpolator_field, first, 80),
    AT(interpolator_field, end, 88),
    AT(interpolator_field, real, 96),
    AT(interpolator_field, single, 104),
    AT(interpolator_field, spare, 108),
    SIZE(interpolator_answer, 40),
    AT(interpolator_answer, code, 0),
    AT(interpolator_answer, detail, 4),
    AT(interpolator_answer, place, 8),
    AT(interpolator_answer, length, 16),
    AT(interpolator_answer, message, 24),
    AT(interpolator_answer, row, 32),
    SIZE(interpolator_fault, 16),
    AT(interpolator_fault, code, 0),
    AT(interpolator_fault, detail, 4),
    AT(interpolator_fault, place, 8),
    SIZE(interpolator_source, 48),
    AT(interpolator_source, name, 0),
    AT(interpolator_source, text, 16),
    AT(interpolator_source, first_line, 32),
    AT(interpolator_source, start, 40),
    SIZE(interpolator_cost_answer, 32),
    AT(interpolator_cost_answer, code, 0),
    AT(interpolator_cost_answer, detail, 4),
    AT(interpolator_cost_answer, characters, 8),
    AT(interpolator_cost_answer, pieces, 16),
    AT(interpolator_cost_answer, buffered, 24),
    SIZE(interpolator_argument, 96),
    AT(interpolator_argument, name_first, 0),
    AT(interpolator_argument, name_end, 8),
    AT(interpolator_argument, request, 16),
    AT(interpolator_argument, item_first, 64),
    AT(interpolator_argument, item_end, 72),
    AT(interpolator_argument, join_first, 80),
    AT(interpolator_argument, join_end, 88),
    SIZE(interpolator_sizes, 144),
    SIZE(rattle_block, 16),
    NUMBER(INTERPOLATOR_TABLE, 10),
    NUMBER(INTERPOLATOR_MISPLACED, 11),
    NUMBER(INTERPOLATOR_NO_ESCAPE, 12),
    NUMBER(INTERPOLATOR_ESCAPE_NONE, 0),
    NUMBER(INTERPOLATOR_ESCAPE_LINE, 1),
    NUMBER(INTERPOLATOR_ESCAPE_HTML, 2),
    NUMBER(INTERPOLATOR_ESCAPE_CSV, 3),
    NUMBER(INTERPOLATOR_ESCAPE_JSON, 4),
    NUMBER(INTERPOLATOR_ESCAPE_SHELL, 5),
};

int main(void) {
  size_t k, failures = !interpolator_agrees();
  for (k = 0; k < sizeof all / sizeof *all; k++)
    if (all[k].is != all[k].was) {
      printf("FAILED: %s is %lu, not %lu\n", all[k].name, (unsigned long)all[k].is,
             (unsigned long)all[k].was);
      failures++;
    }
  printf("abi: %lu numbers, %lu failed\n", (unsigned long)(sizeof all / sizeof *all),
         (unsigned long)failures);
  return failures != 0;
}
