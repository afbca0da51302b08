// interpolator.hpp: interpolator.h for C++17, by the types of the standard library.
//
// A format and named values go in; a std::string comes out, or an exception of the class `error`:
//
//   std::string text =
//       interpolator::format("{name:>8}: {l:i({})(, )}", {{"name", "Ann"}, {"l", {1, 2}}});
//
// A `value` views a string literal or a std::string_view, which has to live until the last call
// with it; a std::string it keeps. Nothing else has to be freed or kept.
#ifndef INTERPOLATOR_HPP
#define INTERPOLATOR_HPP
#include "interpolator.h"
#include "interpolator_pictures.h"

#include <algorithm>
#include <cstddef>
#include <cstdint>
#include <deque>
#include <functional>
#include <initializer_list>
#include <map>
#include <memory>
#include <new>
#include <optional>
#include <stdexcept>
#include <string>
#include <string_view>
#include <type_traits>
#include <utility>
#include <variant>
#include <vector>

namespace interpolator {

// How an argument wants its value written: its trait, and its spec.
using request = interpolator_request;

// No printer is asked for a text under a greater width or precision: the format then has the fault
// MISSING_TRAIT at that argument. The same limit is that of Rust's own formats.
inline constexpr std::size_t most_width = 65535;

// ---- Texts that a program makes

// A text cut to the precision of a request, and padded to its width as a text is.
inline std::string padded(std::string_view text, const request &asked);

// A number without its sign, padded to the width of a request as a number is: with its sign, zeros
// or the fill, at the right if no alignment is given. (The precision is for whoever made the
// digits.)
inline std::string padded_number(bool negative, std::string_view digits, const request &asked);

namespace detail {

// How many characters a text in UTF-8 has.
inline std::size_t characters(std::string_view text) {
  return static_cast<std::size_t>(
      std::count_if(text.begin(), text.end(), [](char byte) { return (byte & 0xC0) != 0x80; }));
}

// A character in UTF-8.
inline std::string encoded(std::uint32_t code) {
  const auto part = [&](int shift, std::uint32_t mark) {
    return static_cast<char>(mark | (mark == 0x80 ? code >> shift & 0x3F : code >> shift));
  };
  if (code < 0x80) return {static_cast<char>(code)};
  if (code < 0x800) return {part(6, 0xC0), part(0, 0x80)};
  if (code < 0x10000) return {part(12, 0xE0), part(6, 0x80), part(0, 0x80)};
  return {part(18, 0xF0), part(12, 0x80), part(6, 0x80), part(0, 0x80)};
}

// A text between the fill of a request; `otherwise` is the alignment of a request that gives none.
inline std::string aligned(std::string_view text, const request &asked, std::uint32_t otherwise) {
  const std::size_t length = characters(text);
  const std::size_t missing = asked.width > length ? asked.width - length : 0;
  const std::uint32_t alignment = asked.alignment ? asked.alignment : otherwise;
  const std::size_t before = alignment == 3 ? missing : alignment == 2 ? missing / 2 : 0;
  const std::string fill = asked.fill == INTERPOLATOR_NO_FILL ? " " : encoded(asked.fill);
  std::string made;
  for (std::size_t k = 0; k < before; k++) made += fill;
  made += text;
  for (std::size_t k = before; k < missing; k++) made += fill;
  return made;
}

} // namespace detail

inline std::string padded(std::string_view text, const request &asked) {
  if (asked.given & INTERPOLATOR_PRECISION) {
    std::size_t end = 0, kept = 0;
    for (; end < text.size(); end++)
      if ((text[end] & 0xC0) != 0x80 && kept++ == asked.precision) break;
    text = text.substr(0, end);
  }
  return detail::aligned(text, asked, 1);
}

inline std::string padded_number(bool negative, std::string_view digits, const request &asked) {
  std::string made = negative ? "-" : asked.sign == 1 ? "+" : "";
  const std::size_t length = made.size() + detail::characters(digits);
  if (asked.zero && asked.width > length) made.append(asked.width - length, '0');
  made += digits;
  return detail::aligned(made, asked, 3);
}

namespace detail {

template <class Type>
inline constexpr bool is_character =
    std::is_same_v<Type, char> || std::is_same_v<Type, char16_t>
    || std::is_same_v<Type, char32_t> || std::is_same_v<Type, wchar_t>;

template <class Type>
inline constexpr bool is_whole =
    std::is_integral_v<Type> && !std::is_same_v<Type, bool> && !is_character<Type>
    && sizeof(Type) <= 8;

template <class Type, class = void> inline constexpr bool is_range = false;
template <class Type>
inline constexpr bool is_range<Type, std::void_t<decltype(std::declval<const Type &>().begin()),
                                                 decltype(std::declval<const Type &>().end())>> =
    !std::is_convertible_v<Type, std::string_view>;

} // namespace detail

// ---- Values

// Makes the text of a value for a request. Without one the format has the fault MISSING_TRAIT
// there.
using printer = std::function<std::optional<std::string>(const request &)>;

// A value: a text, a whole number, a truth value, a character, a floating number, a list, or what a
// printer prints.
class value {
public:
  // An empty list.
  value() : value(std::vector<value>()) {}
  value(const char *text) : value(std::string_view(text)) {}
  value(std::string_view text) : kind_(INTERPOLATOR_TEXT), of_(text) {}
  value(std::string text) : kind_(INTERPOLATOR_TEXT), of_(std::move(text)) {}
  value(std::initializer_list<value> items) : value(std::vector<value>(items)) {}
  value(std::vector<value> items) : kind_(INTERPOLATOR_LIST), of_(std::move(items)) {}

  // A truth value, and nothing that only converts to one.
  template <class Truth, std::enable_if_t<std::is_same_v<Truth, bool>, int> = 0>
  value(Truth truth) : kind_(INTERPOLATOR_TRUTH), of_(numbers{0, truth}) {}

  // A character. A `char` past ASCII is none: to write it is the fault FMT.
  template <class Character, std::enable_if_t<detail::is_character<Character>, long> = 0>
  value(Character character)
      : kind_(INTERPOLATOR_CHARACTER), of_(numbers{0, code_of(character)}) {}

  // A whole number of 8 to 64 bits.
  template <class Number, std::enable_if_t<detail::is_whole<Number>, short> = 0>
  value(Number number) : kind_(kind_of<Number>()), of_(numbers_of(number)) {}

#ifdef __SIZEOF_INT128__
  __extension__ value(__int128 number)
      : kind_(INTERPOLATOR_SIGNED128),
        of_(numbers{static_cast<std::int64_t>(number >> 64), static_cast<std::uint64_t>(number)}) {}
  __extension__ value(unsigned __int128 number)
      : kind_(INTERPOLATOR_UNSIGNED128),
        of_(numbers{0, static_cast<std::uint64_t>(number),
                    static_cast<std::uint64_t>(number >> 64)}) {}
#endif

  // A floating number, written as Rust writes it.
  value(double number) : kind_(INTERPOLATOR_DOUBLE), of_(numbers{0, 0, 0, number}) {}
  value(float number) : kind_(INTERPOLATOR_FLOAT), of_(numbers{0, 0, 0, 0, number}) {}

  // What a printer prints.
  template <class Printer, std::enable_if_t<std::is_invocable_r_v<std::optional<std::string>,
                                                                  const Printer &, const request &>,
                                            char> = 0>
  value(Printer print) : kind_(INTERPOLATOR_LENT), of_(printer(std::move(print))) {}

  // The items of a container.
  template <class Range, std::enable_if_t<detail::is_range<Range>, int *> = nullptr>
  value(const Range &items) : value(std::vector<value>(items.begin(), items.end())) {}

  // A text that is written as it is, without padding and quotes.
  static value plain(std::string text) {
    value made(std::move(text));
    made.kind_ = INTERPOLATOR_PLAIN;
    return made;
  }

  // A decimal, `units` of 10^-scale.
  static value decimal(std::int64_t units, std::uint32_t scale) {
    value made;
    made.kind_ = INTERPOLATOR_DECIMAL;
    made.of_ = numbers{units < 0 ? -1 : 0, static_cast<std::uint64_t>(units), scale};
    return made;
  }

  // The same value, which a format may write under these slots alone: INTERPOLATOR_SLOT_DISPLAY ..
  value only(std::uint32_t slots) && {
    slots_ = slots;
    return std::move(*this);
  }

  // What a call needs of it.
  struct numbers {
    std::int64_t number = 0;
    std::uint64_t natural = 0, upper = 0;
    double real = 0;
    float single = 0;
  };
  std::uint32_t kind() const { return kind_; }
  std::uint32_t slots() const { return slots_; }
  const std::vector<value> *items() const { return std::get_if<std::vector<value>>(&of_); }
  const numbers *number() const { return std::get_if<numbers>(&of_); }
  std::string_view text() const {
    if (const auto *view = std::get_if<std::string_view>(&of_)) return *view;
    if (const auto *kept = std::get_if<std::string>(&of_)) return *kept;
    return {};
  }
  std::optional<std::string> printed(const request &asked) const {
    if (asked.width > most_width || asked.precision > most_width) return std::nullopt;
    const auto *print = std::get_if<printer>(&of_);
    return print && *print ? (*print)(asked) : std::nullopt;
  }

private:
  template <class Number> static constexpr std::uint32_t kind_of() {
    if (std::is_unsigned_v<Number>) return INTERPOLATOR_UNSIGNED;
    return sizeof(Number) == 1   ? INTERPOLATOR_SIGNED8
           : sizeof(Number) == 2 ? INTERPOLATOR_SIGNED16
           : sizeof(Number) == 4 ? INTERPOLATOR_SIGNED32
                                 : INTERPOLATOR_SIGNED64;
  }
  template <class Number> static numbers numbers_of(Number number) {
    if constexpr (std::is_unsigned_v<Number>) return numbers{0, number};
    else return numbers{number};
  }
  template <class Character> static std::uint64_t code_of(Character character) {
    const auto code = static_cast<std::uint32_t>(character);
    return std::is_same_v<Character, char> && code >= 0x80 ? UINT32_MAX : code;
  }

  std::uint32_t kind_;
  std::uint32_t slots_ = 0;
  std::variant<std::string_view, std::string, numbers, printer, std::vector<value>> of_;
};

// A decimal, `units` of 10^-scale: 12.50 is 1250 at the scale 2. Its digits are exact, and a
// precision rounds to the nearest, of two to the even one.
inline value decimal(std::int64_t units, std::uint32_t scale) {
  return value::decimal(units, scale);
}

// A value under a name.
struct field {
  std::string_view name;
  value of;
};

// The fields of a format, `{{"name", "Ann"}, {"n", 7}}`; of two equal names the last counts.
using fields = std::vector<field>;

// A fault of a format, or of a call: `what()` is its sentence.
class error : public std::runtime_error {
public:
  error(const interpolator_answer &answer, const std::string &sentence)
      : std::runtime_error(sentence), code(answer.code), detail(answer.detail), place(answer.place),
        row(answer.row) {}

  const std::uint32_t code;   // INTERPOLATOR_MISSING_TRAIT ..
  const std::uint32_t detail; // as interpolator.h says
  const std::size_t place;    // the byte of the format, of the codes 1 to 5 and MISPLACED
  const std::size_t row;      // of `rows`: how many rows come before it
};

// A text, or what is wrong.
struct result {
  interpolator_answer answer;
  std::string text; // or the sentence of the fault
  explicit operator bool() const { return answer.code == INTERPOLATOR_OK; }
};

namespace detail {

inline const char *sentence_of(std::uint32_t code) {
  switch (code) {
  case INTERPOLATOR_NO_MEMORY: return "out of memory";
  case INTERPOLATOR_NOT_UTF8: return "not UTF-8";
  case INTERPOLATOR_LISTS: return "lists are nested too deep";
  case INTERPOLATOR_FULL: return "the room is too small";
  case INTERPOLATOR_TABLE: return "a row has not as many cells as there are columns";
  default: return "a call failed";
  }
}

// Calls a function with a room, and again with one that is large enough.
template <class Call> result answered(Call call, std::size_t guess) {
  std::string room(guess, '\0');
  for (;;) {
    const interpolator_answer answer = call(room.data(), room.size());
    const std::size_t length =
        answer.code == INTERPOLATOR_OK && !answer.message ? answer.length : answer.message;
    const bool fits = length <= room.size();
    room.resize(length);
    if (!fits) continue;
    if (answer.code != INTERPOLATOR_OK && room.empty()) room = sentence_of(answer.code);
    return {answer, std::move(room)};
  }
}

inline std::string text_or_throw(result got) {
  if (!got) throw error(got.answer, got.text);
  return std::move(got.text);
}

inline interpolator_bytes bytes_of(std::string_view text) {
  return interpolator_span(text.data(), text.size());
}

// How a format uses a value: under which requests it prints it, and how it uses the items.
struct uses {
  std::vector<request> requests;
  std::unique_ptr<uses> items;

  uses &of_items() {
    if (!items) items = std::make_unique<uses>();
    return *items;
  }
};

inline const uses &unused() {
  static const uses none;
  return none;
}

inline request plain_display() {
  request made{};
  made.fill = INTERPOLATOR_NO_FILL;
  return made;
}

inline std::vector<interpolator_argument> arguments_of(std::string_view format) {
  std::vector<interpolator_argument> found(
      static_cast<std::size_t>(std::count(format.begin(), format.end(), '{')));
  const auto got = interpolator_arguments(format.data(), format.size(), found.data(), found.size());
  if (got.code == INTERPOLATOR_NO_MEMORY) throw error(got, sentence_of(got.code));
  // a format that is not UTF-8 has none, and its fault is that of the call
  found.resize(got.code == INTERPOLATOR_OK ? std::min(got.length, found.size()) : 0);
  return found;
}

// How a format uses each name.
class reading {
public:
  explicit reading(std::string_view format) {
    std::vector<std::pair<std::size_t, uses *>> around; // item formats, each with its end
    for (const auto &one : arguments_of(format)) {
      while (!around.empty() && one.name_first > around.back().first) around.pop_back();
      const auto name = format.substr(one.name_first, one.name_end - one.name_first);
      uses &of = name.empty() && !around.empty() ? *around.back().second : names_[name];
      if (one.request.slot != INTERPOLATOR_ITER) of.requests.push_back(one.request);
      else if (one.item_first) around.emplace_back(one.item_end, &of.of_items());
      else of.of_items().requests.push_back(plain_display());
    }
  }

  const uses &of(std::string_view name) const {
    const auto found = names_.find(name);
    return found == names_.end() ? unused() : found->second;
  }

private:
  std::map<std::string_view, uses> names_;
};

inline bool prints(const value &of) {
  const auto *items = of.items();
  return items ? std::any_of(items->begin(), items->end(), prints) : of.kind() == INTERPOLATOR_LENT;
}

// The fields of a call, and what they point to.
class laid {
public:
  laid(std::string_view format, const fields &row) {
    std::optional<reading> read;
    for (const auto &one : row) {
      if (!read && prints(one.of)) read.emplace(format);
      add(one.name, one.of, read ? read->of(one.name) : unused());
    }
    lay_lists();
  }

  // The cells of a table, none of which is a list.
  laid(const std::vector<const uses *> &columns, const std::vector<std::vector<value>> &rows) {
    for (const auto &row : rows)
      for (std::size_t k = 0; k < row.size(); k++)
        add({}, row[k], k < columns.size() ? *columns[k] : unused());
  }

  const interpolator_field *row() const { return row_.data(); }
  std::size_t count() const { return row_.size(); }
  const interpolator_field *items() const { return items_.data(); }
  std::size_t item_count() const { return items_.size(); }

private:
  struct list {
    bool among_items;
    std::size_t at;
    const std::vector<value> *items;
    const uses *of;
  };

  void add(std::string_view name, const value &of, const uses &used) {
    if (of.items()) lists_.push_back({false, row_.size(), of.items(), &used});
    row_.push_back(made_of(of, used));
    row_.back().name = bytes_of(name);
  }

  // The items level by level, as interpolator.h says.
  void lay_lists() {
    for (; !lists_.empty(); lists_.pop_front()) {
      const list next = lists_.front();
      const std::size_t first = items_.size();
      const uses &used = next.of->items ? *next.of->items : unused();
      for (const auto &item : *next.items) {
        if (item.items()) lists_.push_back({true, items_.size(), item.items(), &used});
        items_.push_back(made_of(item, used));
      }
      interpolator_field &holder = next.among_items ? items_[next.at] : row_[next.at];
      holder.first = first;
      holder.end = items_.size();
    }
  }

  interpolator_field made_of(const value &of, const uses &used) {
    interpolator_field made = interpolator_of("", of.kind());
    made.slots = of.slots();
    if (const auto *number = of.number()) {
      made.number = number->number;
      made.natural = number->natural;
      made.upper = number->upper;
      made.real = number->real;
      made.single = number->single;
    } else if (of.kind() == INTERPOLATOR_LENT) {
      lend(made, of, used);
    } else {
      made.text = bytes_of(of.text());
    }
    return made;
  }

  void lend(interpolator_field &made, const value &of, const uses &used) {
    std::vector<interpolator_lent> &lent = lent_.emplace_back();
    for (const auto &asked : used.requests)
      if (auto text = of.printed(asked))
        lent.push_back({asked, bytes_of(texts_.emplace_back(std::move(*text)))});
    made.lent = lent.data();
    made.lent_count = lent.size();
  }

  std::vector<interpolator_field> row_, items_;
  std::deque<list> lists_;
  std::deque<std::vector<interpolator_lent>> lent_;
  std::deque<std::string> texts_;
};

} // namespace detail

// ---- Calls

// The text of a format, or its fault.
inline result try_format(std::string_view format, const fields &row) {
  const detail::laid of(format, row);
  return detail::answered(
      [&](char *room, std::size_t size) {
        return interpolator_format(format.data(), format.size(), of.row(), of.count(), of.items(),
                                   of.item_count(), room, size);
      },
      format.size() + 128);
}

// The text of a format; a fault is thrown as `error`.
inline std::string format(std::string_view format, const fields &row) {
  return detail::text_or_throw(try_format(format, row));
}

// Where the values of a format are shown: see interpolator.h.
enum class escape : std::uint32_t {
  none = INTERPOLATOR_ESCAPE_NONE,
  line = INTERPOLATOR_ESCAPE_LINE,
  html = INTERPOLATOR_ESCAPE_HTML,
  csv = INTERPOLATOR_ESCAPE_CSV,
  json = INTERPOLATOR_ESCAPE_JSON,
  shell = INTERPOLATOR_ESCAPE_SHELL
};

// The text of a format in which each value is escaped, or its fault, or which value is out of place.
// A printer's text is escaped too.
inline result try_format_escaped(escape by, std::string_view format, const fields &row) {
  const detail::laid of(format, row);
  return detail::answered(
      [&](char *room, std::size_t size) {
        return interpolator_escaped(static_cast<std::uint32_t>(by), format.data(), format.size(),
                                    of.row(), of.count(), of.items(), of.item_count(), room, size);
      },
      format.size() + 128);
}

// The text of a format in which each value is escaped; a fault, and a value that is out of place, are
// thrown as `error`.
inline std::string format_escaped(escape by, std::string_view format, const fields &row) {
  return detail::text_or_throw(try_format_escaped(by, format, row));
}

// The text of a format, or its fault, in no more memory than `most` bytes for the text: if it has
// more, that is the code INTERPOLATOR_FULL.
inline result try_format_within(std::string_view format, const fields &row, std::size_t most) {
  const detail::laid of(format, row);
  std::string room(std::min(most, format.size() + 128), '\0'), sentence(128, '\0');
  for (;;) {
    interpolator_answer got =
        interpolator_write(format.data(), format.size(), of.row(), of.count(), of.items(),
                           of.item_count(), room.data(), room.size(), sentence.data(),
                           sentence.size());
    if (got.code == INTERPOLATOR_OK) {
      room.resize(got.length);
      return {got, std::move(room)};
    }
    // a list under a width lacks memory if the room has too little left for it
    const bool is_short =
        got.code == INTERPOLATOR_FULL || got.code == INTERPOLATOR_NO_MEMORY;
    if (is_short && room.size() < most) {
      room.assign(room.size() < most / 4 ? room.size() * 4 + 1 : most, '\0');
      continue;
    }
    const bool fits = got.message <= sentence.size();
    sentence.resize(got.message);
    if (!fits) continue;
    got.length = 0;
    return {got, std::move(sentence)};
  }
}

// The text of a format, if it has no more than `most` bytes; a fault, and a longer text, are thrown
// as `error`.
inline std::string format_within(std::string_view format, const fields &row, std::size_t most) {
  return detail::text_or_throw(try_format_within(format, row, most));
}

// Throws the first fault that a format has by itself or over a row of examples. If it returns, no
// row that resembles the examples makes one.
inline void check(std::string_view format, const fields &examples) {
  const detail::laid of(format, examples);
  detail::text_or_throw(detail::answered(
      [&](char *room, std::size_t size) {
        return interpolator_check(format.data(), format.size(), of.row(), of.count(), of.items(),
                                  of.item_count(), room, size);
      },
      128));
}

// Throws the first fault that a format has by itself, whatever the values are.
inline void check_alone(std::string_view format) {
  detail::text_or_throw(detail::answered(
      [&](char *room, std::size_t size) {
        return interpolator_check_alone(format.data(), format.size(), room, size);
      },
      128));
}

// All faults that a format has by itself or over a row of examples.
inline std::vector<interpolator_fault> faults(std::string_view format, const fields &examples) {
  const detail::laid of(format, examples);
  std::vector<interpolator_fault> found(8);
  for (;;) {
    const auto got = interpolator_faults(format.data(), format.size(), of.row(), of.count(),
                                         of.items(), of.item_count(), found.data(), found.size());
    if (got.code != INTERPOLATOR_OK) throw error(got, detail::sentence_of(got.code));
    const bool fits = got.length <= found.size();
    found.resize(got.length);
    if (fits) return found;
  }
}

// Where a format is: in a text, such as a line of a file, which begins at this line of what has
// this name.
struct source {
  std::string_view name;
  std::string_view text;
  std::size_t first_line = 1;
  std::size_t start = 0; // the byte of the text at which the format begins
};

namespace detail {

inline interpolator_source source_of(const source &where) {
  return {bytes_of(where.name), bytes_of(where.text), where.first_line, where.start};
}

// Keeps a picture; without memory for it, it wants no more.
inline int keep(void *with, const interpolator_fault *, const char *picture, std::size_t length) {
  try {
    static_cast<std::vector<std::string> *>(with)->emplace_back(picture, length);
    return 0;
  } catch (...) {
    return 1;
  }
}

} // namespace detail

// A fault as a compiler shows it, or nothing if there are no more than `which` faults.
inline std::optional<std::string> explain(const source &where, std::string_view format,
                                          const fields &examples, std::size_t which = 0) {
  const detail::laid of(format, examples);
  const interpolator_source from = detail::source_of(where);
  result got = detail::answered(
      [&](char *room, std::size_t size) {
        return interpolator_explain(&from, format.data(), format.size(), of.row(), of.count(),
                                    of.items(), of.item_count(), which, room, size);
      },
      256);
  if (got) return std::nullopt;
  if (got.answer.code > INTERPOLATOR_UNSUPPORTED) throw error(got.answer, got.text);
  return std::move(got.text);
}

// All faults as a compiler shows them, in time linear in them.
inline std::vector<std::string> explain_all(const source &where, std::string_view format,
                                            const fields &examples) {
  const detail::laid of(format, examples);
  const interpolator_source from = detail::source_of(where);
  std::vector<std::string> pictures;
  const auto got = interpolator_explain_all(&from, format.data(), format.size(), of.row(), of.count(),
                                            of.items(), of.item_count(), detail::keep, &pictures);
  if (got.code != INTERPOLATOR_OK) throw error(got, detail::sentence_of(got.code));
  if (pictures.size() < got.length) throw std::bad_alloc();
  return pictures;
}

namespace detail {

// Throws at the first row that has not a cell for each column, or has a list, which no cell may be.
inline void check_rows(std::size_t columns, const std::vector<std::vector<value>> &rows) {
  for (std::size_t k = 0; k < rows.size(); k++) {
    const bool has_list =
        std::any_of(rows[k].begin(), rows[k].end(), [](const value &cell) { return cell.items(); });
    if (rows[k].size() == columns && !has_list) continue;
    interpolator_answer wrong{};
    wrong.code = has_list ? INTERPOLATOR_LISTS : INTERPOLATOR_TABLE;
    wrong.row = k;
    throw error(wrong, has_list ? "a cell of a table is a list" : sentence_of(wrong.code));
  }
}

} // namespace detail

// The text of a format for each row of a table: the columns have a name and an example each, and
// each row has a cell for each column, none of which is a list (INTERPOLATOR_LISTS). The format is
// read and prepared once.
inline std::vector<std::string> rows(std::string_view format, const fields &columns,
                                     const std::vector<std::vector<value>> &cells) {
  const detail::laid heads(format, columns);
  const detail::reading read(format);
  std::vector<const detail::uses *> used;
  for (const auto &column : columns) used.push_back(&read.of(column.name));
  detail::check_rows(columns.size(), cells);
  const detail::laid table(used, cells);
  std::vector<std::size_t> ends(cells.size());
  const std::string text = detail::text_or_throw(detail::answered(
      [&](char *room, std::size_t size) {
        return interpolator_rows(format.data(), format.size(), heads.row(), heads.count(),
                                 table.row(), table.count(), ends.data(), ends.size(), room, size);
      },
      cells.size() * (format.size() + 16) + 128));
  std::vector<std::string> made;
  for (std::size_t k = 0; k < ends.size(); k++) {
    const std::size_t start = k ? ends[k - 1] : 0;
    made.push_back(text.substr(start, ends[k] - start));
  }
  return made;
}

// How much a format can write, over values whose texts have at most `text` characters and whose
// lists have at most `items` items.
inline interpolator_cost_answer cost(std::string_view format, std::size_t text, std::size_t items) {
  const auto got = interpolator_cost(format.data(), format.size(), text, items);
  if (got.code == INTERPOLATOR_OK) return got;
  interpolator_answer wrong{};
  wrong.code = got.code;
  throw error(wrong, detail::sentence_of(got.code));
}

// The arguments of a format in order, and after a list those of its item format and of its join.
inline std::vector<interpolator_argument> arguments(std::string_view format) {
  return detail::arguments_of(format);
}

} // namespace interpolator
#endif
