/* Doubles, floats and decimals as fields: against tables of rustc and of Python's decimal, against
 * libc's printf and strtod on numbers by chance, under each rounding mode, in lists, in tables, and out
 * of range.
 *
 *   numbers [TIMES]
 */
#include "interpolator.h"
#include <fenv.h>
#include <float.h>
#include <math.h>
#include <stdio.h>
#include <stdlib.h>

static unsigned long checks, failures;

static void want_at(int line, int holds, const char *got) {
  checks++;
  if (holds) return;
  failures++;
  printf("FAILED line %d: %s\n", line, got);
}
#define WANT(holds, got) want_at(__LINE__, (holds) != 0, got)

static void want_text(int line, const char *format, const interpolator_field *fields, size_t count,
                      const interpolator_field *items, size_t item_count, const char *wanted) {
  char room[9000];
  interpolator_answer got = interpolator_format(format, strlen(format), fields, count, items,
                                                item_count, room, sizeof room - 1);
  size_t length = got.code ? got.message : got.length;
  room[length < sizeof room ? length : 0] = '\0';
  want_at(line, got.code == INTERPOLATOR_OK && strcmp(room, wanted) == 0, room);
}

/* By rustc 1.95, from the same format. */
static void doubles(void) {
  static const char form[] =
      "{v:*^12.2}|{v:<08.1}|{v:\xC3\xA9>9.0}|{v:^+9.3e}|{v:-<7?}|{v:012E}|{v:#.1}|{v:x?}";
  static const struct {
    double number;
    const char *text; /* `~` for the fill */
  } all[] = {
      {0.0, "****0.00****|000000.0|~~~~~~~~0|+0.000e0 |0.0----|0000000000E0|0.0|0.0"},
      {-0.0, "***-0.00****|-00000.0|~~~~~~~-0|-0.000e0 |-0.0---|-000000000E0|-0.0|-0.0"},
      {1.5, "****1.50****|000001.5|~~~~~~~~2|+1.500e0 |1.5----|00000001.5E0|1.5|1.5"},
      {-2.5, "***-2.50****|-00002.5|~~~~~~~-2|-2.500e0 |-2.5---|-0000002.5E0|-2.5|-2.5"},
      {1234.5, "**1234.50***|001234.5|~~~~~1234|+1.234e3 |1234.5-|00001.2345E3|1234.5|1234.5"},
      {0.1, "****0.10****|000000.1|~~~~~~~~0|+1.000e-1|0.1----|000000001E-1|0.1|0.1"},
      {1e21, "1000000000000000000000.00|1000000000000000000000.0|1000000000000000000000|+1.000e21|"
             "1e21---|000000001E21|1000000000000000000000.0|1e21"},
      {5e-324, "****0.00****|000000.0|~~~~~~~~0|+4.941e-324|5e-324-|0000005E-324|0.0|5e-324"},
      {9.995, "****9.99****|000010.0|~~~~~~~10|+9.995e0 |9.995--|000009.995E0|10.0|9.995"},
      {1e23, "99999999999999991611392.00|99999999999999991611392.0|99999999999999991611392|"
             "+1.000e23|1e23---|000000001E23|99999999999999991611392.0|1e23"},
      {HUGE_VAL, "****inf*****|00000inf|~~~~~~inf|  +inf   |inf----|000000000inf|inf|inf"},
      {NAN, "****NaN*****|00000NaN|~~~~~~NaN|   NaN   |NaN----|000000000NaN|NaN|NaN"},
      {-HUGE_VAL, "****-inf****|-0000inf|~~~~~-inf|  -inf   |-inf---|-00000000inf|-inf|-inf"},
  };
  size_t k, at;
  for (k = 0; k < sizeof all / sizeof *all; k++) {
    char wanted[400], *end = wanted;
    interpolator_field field = interpolator_double("v", all[k].number);
    for (at = 0; all[k].text[at]; at++) {
      if (all[k].text[at] == '~') *end++ = '\xC3', *end++ = '\xA9';
      else *end++ = all[k].text[at];
    }
    *end = '\0';
    want_text(__LINE__, form, &field, 1, NULL, 0, wanted);
  }
}

/* By Python's decimal, which rounds half to even too; in exponent form by hand. */
static void decimals(void) {
  static const char form[] = "{v}|{v:.0}|{v:.1}|{v:.25}|{v:+.2}|{v:e}|{v:.1E}|{v:?}|{v:*>7}|{v:07}";
  static const struct {
    int64_t units;
    uint32_t scale;
    const char *text;
  } all[] = {
      {1250, 2, "12.50|12|12.5|12.5000000000000000000000000|+12.50|1.25e1|1.2E1|12.50|**12.50|"
                "0012.50"},
      {-1, 2, "-0.01|-0|-0.0|-0.0100000000000000000000000|-0.01|-1e-2|-1.0E-2|-0.01|**-0.01|"
              "-000.01"},
      {0, 2, "0.00|0|0.0|0.0000000000000000000000000|+0.00|0e0|0.0E0|0.00|***0.00|0000.00"},
      {5, 1, "0.5|0|0.5|0.5000000000000000000000000|+0.50|5e-1|5.0E-1|0.5|****0.5|00000.5"},
      {25, 1, "2.5|2|2.5|2.5000000000000000000000000|+2.50|2.5e0|2.5E0|2.5|****2.5|00002.5"},
      {-15, 1, "-1.5|-2|-1.5|-1.5000000000000000000000000|-1.50|-1.5e0|-1.5E0|-1.5|***-1.5|"
               "-0001.5"},
      {995, 2, "9.95|10|10.0|9.9500000000000000000000000|+9.95|9.95e0|1.0E1|9.95|***9.95|0009.95"},
      {105, 2, "1.05|1|1.0|1.0500000000000000000000000|+1.05|1.05e0|1.0E0|1.05|***1.05|0001.05"},
      {115, 2, "1.15|1|1.2|1.1500000000000000000000000|+1.15|1.15e0|1.2E0|1.15|***1.15|0001.15"},
      {7, 30, "0.000000000000000000000000000007|0|0.0|0.0000000000000000000000000|+0.00|7e-30|"
              "7.0E-30|0.000000000000000000000000000007|0.000000000000000000000000000007|"
              "0.000000000000000000000000000007"},
      {INT64_MIN, 18, "-9.223372036854775808|-9|-9.2|-9.2233720368547758080000000|-9.22|"
                      "-9.223372036854775808e0|-9.2E0|-9.223372036854775808|-9.223372036854775808|"
                      "-9.223372036854775808"},
      {INT64_MAX, 0, "9223372036854775807|9223372036854775807|9223372036854775807.0|"
                     "9223372036854775807.0000000000000000000000000|+9223372036854775807.00|"
                     "9.223372036854775807e18|9.2E18|9223372036854775807|9223372036854775807|"
                     "9223372036854775807"},
  };
  size_t k;
  for (k = 0; k < sizeof all / sizeof *all; k++) {
    interpolator_field field = interpolator_decimal("v", all[k].units, all[k].scale);
    want_text(__LINE__, form, &field, 1, NULL, 0, all[k].text);
  }
}

/* ---- Numbers by chance */

static uint64_t state = 88172645463325252U;

static uint64_t chance(void) {
  state ^= state << 13;
  state ^= state >> 7;
  return state ^= state << 17;
}

static double number_by_chance(void) {
  uint64_t bits = chance();
  double number;
  switch (chance() % 5) {
  case 0: return (double)(int64_t)(bits % 2000001 - 1000000) / 1000;
  case 1: return (double)(bits % 4096) / 64; /* many lie half way */
  case 2: bits &= 0x7FFULL << 52; break;     /* powers of two */
  default: break;
  }
  memcpy(&number, &bits, sizeof number);
  return isfinite(number) ? number : 0.1;
}

/* The text of a field under a spec, whose precision is left out if it is negative. */
static const char *text_of(interpolator_field field, const char *letter, int precision) {
  static char room[2000];
  char format[40];
  interpolator_answer got;
  if (precision < 0) sprintf(format, "{v:%s}", letter);
  else sprintf(format, "{v:.%d%s}", precision, letter);
  got = interpolator_format(format, strlen(format), &field, 1, NULL, 0, room, sizeof room - 1);
  room[got.code == INTERPOLATOR_OK && got.length < sizeof room ? got.length : 0] = '\0';
  return room;
}

static const char *double_text(double number, const char *letter, int precision) {
  return text_of(interpolator_double("v", number), letter, precision);
}

/* libc's exponent form, with an exponent as Rust's. */
static const char *printed_exponent(double number, int precision) {
  static char room[2000];
  char *at;
  snprintf(room, sizeof room, "%.*e", precision, number);
  at = strchr(room, 'e') + 1;
  sprintf(at, "%d", atoi(at));
  return room;
}

static void by_chance(long times) {
  char wanted[2000];
  for (; times > 0; times--) {
    double number = number_by_chance();
    int precision = (int)(chance() % (times % 64 ? 20 : 1300)), digits;
    const char *got;
    snprintf(wanted, sizeof wanted, "%.*f", precision, number);
    got = double_text(number, "", precision);
    WANT(strcmp(got, wanted) == 0, wanted);
    got = double_text(number, "e", precision);
    WANT(strcmp(got, printed_exponent(number, precision)) == 0, got);
    /* the fewest digits that are read as the number */
    got = double_text(number, "", -1);
    WANT(strtod(got, NULL) == number, got);
    got = double_text(number, "e", -1);
    WANT(strtod(got, NULL) == number, got);
    for (digits = 0; strtod(printed_exponent(number, digits), NULL) != number; digits++) {}
    WANT(strlen(got) <= strlen(printed_exponent(number, digits)), got);
  }
}

/* The digits do not depend on the rounding mode. */
static void rounding_modes(void) {
  static const int modes[] = {FE_UPWARD, FE_DOWNWARD, FE_TOWARDZERO};
  size_t k;
  for (k = 0; k < 3; k++) {
    fesetround(modes[k]);
    WANT(strcmp(double_text(0.125, "", 2), "0.12") == 0, "0.125");
    WANT(strcmp(double_text(0.3, "", -1), "0.3") == 0, "0.3");
    WANT(strcmp(double_text(-2.675, "e", 2), "-2.67e0") == 0, "-2.675");
  }
  fesetround(FE_TONEAREST);
}

static void floats(void) {
  WANT(strcmp(text_of(interpolator_float("v", 0.1f), "", -1), "0.1") == 0, "0.1f");
  WANT(strcmp(text_of(interpolator_float("v", 162236.625f), "", -1), "162236.63") == 0, "a float");
  WANT(strcmp(text_of(interpolator_float("v", 0.1f), "", 11), "0.10000000149") == 0, "0.1f");
  WANT(strcmp(text_of(interpolator_float("v", FLT_MAX), "e", -1), "3.4028235e38") == 0, "FLT_MAX");
  WANT(strcmp(text_of(interpolator_float("v", NAN), "", -1), "NaN") == 0, "NAN");
  WANT(strcmp(text_of(interpolator_float("v", -HUGE_VALF), "?", -1), "-inf") == 0, "an infinity");
}

/* Each bit pattern is a value, also of a NaN with a sign, or one that signals. */
static void patterns(void) {
  static const uint64_t nans[] = {0x7FF0000000000001U, 0xFFF8000000000000U, UINT64_MAX};
  size_t k;
  for (k = 0; k < 3; k++) {
    interpolator_field field = interpolator_of("v", INTERPOLATOR_DOUBLE);
    uint32_t single = (uint32_t)(nans[k] >> 32) | 1;
    memcpy(&field.real, &nans[k], sizeof field.real);
    want_text(__LINE__, "{v:+}|{v:06}|{v:.2e}", &field, 1, NULL, 0, "NaN|000NaN|NaN");
    field = interpolator_of("v", INTERPOLATOR_FLOAT);
    single |= 0x7F800001U;
    memcpy(&field.single, &single, sizeof field.single);
    want_text(__LINE__, "{v:+}|{v:06}|{v:.2e}", &field, 1, NULL, 0, "NaN|000NaN|NaN");
  }
}

static void want_fault(int line, const char *format, interpolator_field field, uint32_t code,
                       size_t place) {
  interpolator_answer got =
      interpolator_format(format, strlen(format), &field, 1, NULL, 0, NULL, 0);
  want_at(line, got.code == code && got.place == place, format);
  got = interpolator_check(format, strlen(format), &field, 1, NULL, 0, NULL, 0);
  want_at(line, got.code == code && got.place == place, format);
}

/* Under the traits that they have not, and out of range. */
static void without_texts(void) {
  interpolator_field wide = interpolator_decimal("v", 5, UINT32_MAX);
  static const char *const formats[] = {"{v:x}", "{v:X}", "{v:b}", "{v:o}"};
  size_t k;
  for (k = 0; k < 4; k++) {
    want_fault(__LINE__, formats[k], interpolator_double("v", .5), INTERPOLATOR_MISSING_TRAIT, 4);
    want_fault(__LINE__, formats[k], interpolator_float("v", .5), INTERPOLATOR_MISSING_TRAIT, 4);
    want_fault(__LINE__, formats[k], interpolator_decimal("v", 5, 1), INTERPOLATOR_MISSING_TRAIT, 4);
  }
  want_text(__LINE__, "{v:.1}|{v:e}", &wide, 1, NULL, 0, "0.0|5e-4294967295");
  wide.upper++;
  want_fault(__LINE__, "{v:.1}", wide, INTERPOLATOR_FMT, 5);
  wide = interpolator_of("v", INTERPOLATOR_DECIMAL);
  wide.number = INT64_MIN; /* -2^127 */
  want_text(__LINE__, "{v}", &wide, 1, NULL, 0, "-170141183460469231731687303715884105728");
  wide.slots = INTERPOLATOR_SLOT_DISPLAY;
  want_fault(__LINE__, "{v:e}", wide, INTERPOLATOR_MISSING_TRAIT, 4);
}

static void lists_and_tables(void) {
  static const char line[] = "{v:>6.1};";
  interpolator_field fields[2], items[2], cells[3];
  interpolator_answer got;
  char room[40];
  size_t ends[3];
  items[0] = fields[0] = interpolator_double("v", 0.25);
  items[1] = interpolator_decimal("", -75, 2);
  fields[1] = interpolator_list("l", 0, 2);
  want_text(__LINE__, "{l:i({:.1} {v:.2})(, )} {l:i}{l:i#({:#?})#}", fields, 2, items, 2,
            "0.2 0.25, -0.8 0.25 0.25-0.750.25-0.75");
  cells[0] = interpolator_float("", 1.25f);
  cells[1] = interpolator_double("", -1e9);
  cells[2] = interpolator_decimal("", 5, 0);
  got = interpolator_rows(line, sizeof line - 1, fields, 1, cells, 3, ends, 3, room, sizeof room);
  WANT(got.code == INTERPOLATOR_OK && got.length == 28 && ends[0] == 7 && ends[1] == 21, line);
  WANT(memcmp(room, "   1.2;-1000000000.0;   5.0;", 28) == 0, room);
}

int main(int words, char **word) {
  doubles();
  decimals();
  by_chance(words > 1 ? atol(word[1]) : 2000);
  rounding_modes();
  floats();
  patterns();
  without_texts();
  lists_and_tables();
  printf("numbers: %lu checks, %lu failed\n", checks, failures);
  return failures != 0;
}
