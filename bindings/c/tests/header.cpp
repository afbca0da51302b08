// The header for C++17: values of each kind, lists, floating numbers as Rust writes them, faults,
// tables.
#include "interpolator.hpp"

#include <cstdio>
#include <limits>
#include <list>
#include <string>
#include <vector>

using namespace interpolator;

static unsigned long checks, failures;

static void want_at(int line, bool holds, const std::string &got) {
  checks++;
  if (holds) return;
  failures++;
  std::printf("FAILED line %d: %s\n", line, got.c_str());
}
#define WANT(holds) want_at(__LINE__, (holds), #holds)
#define TEXT(wanted, ...) want_text(__LINE__, wanted, try_format(__VA_ARGS__))
#define FAULT(wanted, at, ...) want_fault(__LINE__, wanted, at, try_format(__VA_ARGS__))

static void want_text(int line, std::string_view wanted, const result &got) {
  want_at(line, got && got.text == wanted, got.text);
}

static void want_fault(int line, std::uint32_t code, std::size_t place, const result &got) {
  want_at(line, got.answer.code == code && got.answer.place == place && !got.text.empty(),
          got.text);
}

static std::string made(const char *text) { return text; }

static void values() {
  using std::numeric_limits;
  TEXT("Hello Ann, -7", "Hello {name}, {n}", {{"name", "Ann"}, {"n", -7}});
  TEXT("", "", {});
  TEXT("a text that is made and is kept", "{t}", {{"t", made("a text that is made and is kept")}});
  TEXT("view", "{t}", {{"t", std::string_view("viewed", 4)}});
  TEXT("true false", "{a} {b}", {{"a", true}, {"b", false}});
  TEXT("'x' \xC3\xA9 \xF0\x9F\x98\x80", "{a:?} {b} {c}",
       {{"a", 'x'}, {"b", u'\u00e9'}, {"c", U'\U0001F600'}});
  FAULT(INTERPOLATOR_FMT, 2, "{a}", {{"a", '\xE9'}});
  TEXT("ff fe fffd fffffffc", "{a:x} {b:x} {c:x} {d:x}",
       {{"a", std::uint8_t(255)}, {"b", std::int8_t(-2)}, {"c", short(-3)}, {"d", -4}});
  TEXT("-9223372036854775808 18446744073709551615", "{a} {b}",
       {{"a", numeric_limits<std::int64_t>::min()}, {"b", numeric_limits<std::uint64_t>::max()}});
#ifdef __SIZEOF_INT128__
  __extension__ typedef __int128 wide;
  __extension__ typedef unsigned __int128 natural;
  TEXT("-170141183460469231731687303715884105728 ffffffffffffffffffffffffffffffff", "{a} {b:x}",
       {{"a", static_cast<wide>(natural(1) << 127)}, {"b", ~natural(0)}});
#endif
  TEXT("<b> <b>", "{t:>9} {t:?}", {{"t", value::plain("<b>")}});
  TEXT("7", "{n}", {{"n", value(7).only(INTERPOLATOR_SLOT_DISPLAY)}});
  FAULT(INTERPOLATOR_MISSING_TRAIT, 4, "{n:x}", {{"n", value(7).only(INTERPOLATOR_SLOT_DISPLAY)}});
  FAULT(INTERPOLATOR_MISSING_VALUE, 1, "{m}", {{"n", 7}});
  FAULT(INTERPOLATOR_FMT, 2, "{t}", {{"t", "\xff"}});
  FAULT(INTERPOLATOR_NOT_UTF8, 0, "\xff", {{"t", 1.5}});
  TEXT("last", "{a}", {{"a", "first"}, {"a", "last"}});
  TEXT(std::string(3000, 'x') + "y", "{t}y", {{"t", std::string(3000, 'x')}});
}

static void lists() {
  TEXT("1, 2", "{l:i({})(, )}", {{"l", {1, 2}}});
  TEXT("a", "{l:i}", {{"l", {"a"}}});
  TEXT("", "{l:i}", {{"l", {}}});
  TEXT("1,2;a,b;", "{l:i#({:i({})(,)})#(;)}", {{"l", {{1, 2}, {"a", "b"}, {}}}});
  TEXT("<<5>>", "{l:i##(<{:i#(<{:i({})}>)#}>)##}", {{"l", {{{5}}}}});
  TEXT("a|b", "{l:i({})(|)}", {{"l", std::vector<std::string>{"a", "b"}}});
  TEXT("1.50 2.50", "{l:i({:.2})( )}", {{"l", std::list<double>{1.5, 2.5}}});
  TEXT("1.5 x", "{l:i({}{s})}", {{"l", {1.5}}, {"s", " x"}});
  TEXT("0.5", "{l:i}", {{"l", {0.5}}});
  // the empty name of the inner join is the item around it, a list
  TEXT(" 1.51.5 2.5| 3.5", "{l:i#({:i({:>4})({:i0})})#(|)}", {{"l", {{1.5, 2.5}, {3.5}}}});
  FAULT(INTERPOLATOR_MISSING_TRAIT, 2, "{l}", {{"l", {1}}});
  std::vector<value> deep{5};
  for (int k = 0; k < 70; k++) deep = {value(deep)};
  FAULT(INTERPOLATOR_LISTS, 0, "{l:i}", {{"l", deep}});
}

// By rustc 1.95: `{v}|{v:?}|{v:e}|{v:.0}|{v:.3E}|{v:+08.1}|{v:*^9.1}|{v:>7.1?}|{v:<6.0}|`
static void floating_numbers() {
  const char *const form = "{v}|{v:?}|{v:e}|{v:.0}|{v:.3E}|{v:+08.1}|{v:*^9.1}|{v:>7.1?}|{v:<6.0}|";
  const struct {
    double number;
    const char *text;
  } all[] = {
      {0.0, "0|0.0|0e0|0|0.000E0|+00000.0|***0.0***|    0.0|0     |"},
      {-0.0, "-0|-0.0|-0e0|-0|-0.000E0|-00000.0|**-0.0***|   -0.0|-0    |"},
      {1.0, "1|1.0|1e0|1|1.000E0|+00001.0|***1.0***|    1.0|1     |"},
      {3.14159, "3.14159|3.14159|3.14159e0|3|3.142E0|+00003.1|***3.1***|    3.1|3     |"},
      {-2.5, "-2.5|-2.5|-2.5e0|-2|-2.500E0|-00002.5|**-2.5***|   -2.5|-2    |"},
      {1e21,
       "1000000000000000000000|1e21|1e21|1000000000000000000000|1.000E21|+1000000000000000000000.0|"
       "1000000000000000000000.0|1000000000000000000000.0|1000000000000000000000|"},
      {1e15,
       "1000000000000000|1000000000000000.0|1e15|1000000000000000|1.000E15|+1000000000000000.0|"
       "1000000000000000.0|1000000000000000.0|1000000000000000|"},
      {1e16, "10000000000000000|1e16|1e16|10000000000000000|1.000E16|+10000000000000000.0|"
             "10000000000000000.0|10000000000000000.0|10000000000000000|"},
      {1e23, "100000000000000000000000|1e23|1e23|99999999999999991611392|1.000E23|+"
             "99999999999999991611392.0|"
             "99999999999999991611392.0|99999999999999991611392.0|99999999999999991611392|"},
      {1e-5, "0.00001|1e-5|1e-5|0|1.000E-5|+00000.0|***0.0***|    0.0|0     |"},
      {1.5e-5, "0.000015|1.5e-5|1.5e-5|0|1.500E-5|+00000.0|***0.0***|    0.0|0     |"},
      {0.0001, "0.0001|0.0001|1e-4|0|1.000E-4|+00000.0|***0.0***|    0.0|0     |"},
      {1.5, "1.5|1.5|1.5e0|2|1.500E0|+00001.5|***1.5***|    1.5|2     |"},
      {123456789012345680.0,
       "123456789012345680|1.2345678901234568e17|1.2345678901234568e17|123456789012345680|1.235E17|"
       "+123456789012345680.0|123456789012345680.0|123456789012345680.0|123456789012345680|"},
      {std::numeric_limits<double>::infinity(),
       "inf|inf|inf|inf|inf|+0000inf|***inf***|    inf|inf   |"},
      {-std::numeric_limits<double>::infinity(),
       "-inf|-inf|-inf|-inf|-inf|-0000inf|**-inf***|   -inf|-inf  |"},
      {std::numeric_limits<double>::quiet_NaN(),
       "NaN|NaN|NaN|NaN|NaN|00000NaN|***NaN***|    NaN|NaN   |"},
  };
  for (const auto &one : all) TEXT(one.text, form, {{"v", one.number}});
  TEXT("0.1 0.10000000149 1e-1", "{v} {v:.11} {v:e}", {{"v", 0.1f}});
  // of two shortest texts that are equally near the greater one
  TEXT("162236.63 1.6223663e5", "{v} {v:e}", {{"v", 162236.625f}});
  TEXT("5e-324 1.7976931348623157e308", "{a:e} {b:e}",
       {{"a", 5e-324}, {"b", std::numeric_limits<double>::max()}});
  const result tiny = try_format("{a:.2000} {a:.2000e}", {{"a", 5e-324}});
  WANT(tiny && tiny.text.size() == 2002 + 1 + 2007 && tiny.text.substr(322, 6) == "000494");
  TEXT(std::string(65531, ' ') + "1.5", "{v:65534}", {{"v", 1.5}});
  FAULT(INTERPOLATOR_MISSING_TRAIT, 4, "{v:x}", {{"v", 1.5}});
  TEXT(std::string(99997, ' ') + "1.5", "{v:100000}", {{"v", 1.5}});
  TEXT("1.5" + std::string(99999, '0'), "{v:.100000}", {{"v", 1.5f}});
  TEXT("12.50|12|-0.75", "{a}|{a:.0}|{b}", {{"a", decimal(1250, 2)}, {"b", decimal(-75, 2)}});
}

// The text in no more memory than is allowed.
static void within() {
  const fields row = {{"a", "x"}, {"l", {1, 22}}, {"long", std::string(3000, 'y')}};
  for (std::size_t most : {0u, 1u, 2u, 9u, 200u, 3100u, 100000u}) {
    const result exact = try_format_within("{a:>9}", row, most);
    WANT(most < 9 ? exact.answer.code == INTERPOLATOR_FULL : exact && exact.text == "        x");
    const result list = try_format_within("{l:>300i({})(, )}{long}", row, most);
    WANT(most < 3300 ? !list
                     : list && list.text.size() == 3300 && list.text.substr(294, 7) == " 1, 22y");
    const result bomb = try_format_within("{a:1000000000}{a:18446744073709551615}", row, most);
    WANT(bomb.answer.code == INTERPOLATOR_FULL && bomb.text == "the room is too small");
    const result fault = try_format_within("{nobody}", row, most);
    WANT(fault.answer.code == INTERPOLATOR_MISSING_VALUE && fault.answer.place == 1);
    WANT(fault.text == "specified value not in context `nobody` at 1");
  }
  const std::string name(500, 'n');
  const result fault = try_format_within("{" + name + "}", row, 10);
  WANT(fault.text == "specified value not in context `" + name + "` at 1");
  WANT(format_within("{l:i({:.1})( )}", {{"l", {0.25, 2.5}}}, 7) == "0.2 2.5");
  try {
    format_within("{l:i({:.1})( )}", {{"l", {0.25, 2.5}}}, 6);
    WANT(false);
  } catch (const error &full) {
    WANT(full.code == INTERPOLATOR_FULL);
  }
}

static void printers() {
  const auto shout = [](const request &asked) {
    return std::optional<std::string>(padded("\xC3\xA9h!", asked));
  };
  TEXT("\xC3\xA9h!|..\xC3\xA9h!..|\xC3\xA9h!\xE2\x86\x92|\xC3\xA9h",
       "{s}|{s:.^7}|{s:\xE2\x86\x92<4}|{s:.2}", {{"s", shout}});
  const auto number = [](const request &asked) {
    return std::optional<std::string>(padded_number(true, "12", asked));
  };
  TEXT("-12|  -12|-0012|-12  |-0012", "{n}|{n:5}|{n:05}|{n:<5}|{n:*^05}", {{"n", number}});
  const auto none = [](const request &) { return std::optional<std::string>(); };
  FAULT(INTERPOLATOR_MISSING_TRAIT, 2, "{n}", {{"n", none}});
  int asked = 0;
  const auto counted = [&asked](const request &) {
    return ++asked, std::optional<std::string>("x");
  };
  TEXT("", "{l:i(x)}", {{"l", {}}, {"unused", counted}});
  TEXT("xx", "{c}{c:?}", {{"c", counted}});
  WANT(asked == 2);
}

static void faults_and_pictures() {
  check("{name:>5} {l:i({:.1})} {v:e}", {{"name", ""}, {"l", {0.5}}, {"v", 1.5}});
  check_alone("{any} {l:i({:x})}");
  std::string said;
  try {
    check("Hello {nane}", {{"name", "Ann"}});
  } catch (const error &fault) {
    said = fault.what();
    WANT(fault.code == INTERPOLATOR_MISSING_VALUE && fault.place == 7);
  }
  WANT(said == "specified value not in context `nane` at 7");
  try {
    check_alone("{name");
    WANT(false);
  } catch (const error &fault) {
    WANT(fault.code == INTERPOLATOR_PARSE && (fault.detail & 15) == INTERPOLATOR_UNCLOSED);
  }
  std::string many;
  for (int k = 0; k < 20; k++) many += "{q}";
  WANT(interpolator::faults(many, {}).size() == 20);
  WANT(interpolator::faults("{a}", {{"a", 1}}).empty());
  const source line{"m.txt", "hi = {name:x}", 3, 5};
  const auto picture = explain(line, "{name:x}", {{"name", ""}});
  WANT(picture && picture->substr(0, 11) == "m.txt:3:13:");
  WANT(!explain(line, "{name:x}", {{"name", 1}}));
  WANT(!explain(line, "{name:x}", {{"name", ""}}, 1));
  const auto pictures = explain_all(line, "{name:x}", {{"name", ""}});
  WANT(pictures.size() == 1 && pictures[0] == *picture);
  WANT(explain_all(line, "{name:x}", {{"name", 1}}).empty());
  WANT(cost("{a:>40}{b}", 60, 0).characters == 120);
  WANT(arguments("{a}{l:i({})}").size() == 3);
}

static void tables() {
  const fields columns = {{"name", ""}, {"price", 0.0}};
  const auto texts = rows("{name}={price:.1};", columns, {{"a", 1.25}, {"\xC3\xA9", 2}, {"", 3.5}});
  WANT((texts == std::vector<std::string>{"a=1.2;", "\xC3\xA9=2;", "=3.5;"}));
  WANT(rows("x", {}, {}).empty());
  try {
    rows("{name}", columns, {{"a", 1}, {"b"}});
    WANT(false);
  } catch (const error &fault) {
    WANT(fault.code == INTERPOLATOR_TABLE && fault.row == 1);
  }
  try {
    rows("{name:x}", {{"name", 1}}, {{1}, {2}, {"x"}});
    WANT(false);
  } catch (const error &fault) {
    WANT(fault.code == INTERPOLATOR_MISSING_TRAIT && fault.row == 2);
  }
  try {
    rows("{name:?}{price:i}", columns, {{"a", 1}, {"b", {1, 2}}, {"c"}});
    WANT(false);
  } catch (const error &fault) {
    WANT(fault.code == INTERPOLATOR_LISTS && fault.row == 1);
  }
  try {
    rows("{l:i({})(,)}", {{"l", {1}}}, {});
    WANT(false);
  } catch (const error &fault) {
    WANT(fault.code == INTERPOLATOR_LISTS && fault.row == 0);
  }
}

static void escapes() {
  const fields row = {{"a", "<&>\"x"}, {"b", std::string("it's")}, {"l", {"<", "\""}}};
  WANT(format_escaped(escape::html, "<p title=\"{a}\">{b}</p>", row)
       == "<p title=\"&lt;&amp;&gt;&quot;x\">it&#39;s</p>");
  WANT(format_escaped(escape::shell, "echo {l:i('{}')( )}", row) == "echo '<' '\"'");
  WANT(format_escaped(escape::none, "<{b}>", row) == "<it's>");
  const auto lent = [](const request &) { return std::optional<std::string>("\"lent\""); };
  WANT(format_escaped(escape::json, "\"{v}\"", {{"v", lent}}) == "\"\\\"lent\\\"\"");
  const std::string longer(1000, '"');
  WANT(format_escaped(escape::csv, "\"{v}\"", {{"v", longer}}).size() == 2002);
  WANT(try_format_escaped(escape::line, "{q}", row).answer.code == INTERPOLATOR_MISSING_VALUE);
  try {
    format_escaped(escape::html, "<p id={a}>", row);
    WANT(false);
  } catch (const error &fault) {
    WANT(fault.code == INTERPOLATOR_MISPLACED && fault.place == 6);
    WANT(fault.detail == INTERPOLATOR_MISPLACED_VALUE);
    WANT(std::string(fault.what()) == "this value is out of place");
  }
}

int main() {
  WANT(interpolator_agrees());
  values();
  lists();
  floating_numbers();
  within();
  printers();
  faults_and_pictures();
  tables();
  escapes();
  std::printf("header: %lu checks, %lu failed\n", checks, failures);
  return failures != 0;
}
