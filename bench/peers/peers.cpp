// Texts of crates/interpolator_bench by {fmt}, whose formats are compiled or read at run time, by
// snprintf and by Abseil. `peers WORKLOAD COUNT` makes one so often and prints its length and
// checksum; without a word it prints the names of all. `count.sh` builds this, and says how.
#include <absl/strings/str_cat.h>
#include <absl/strings/str_format.h>
#include <fmt/compile.h>

#include <cstdint>
#include <cstdio>
#include <cstdlib>
#include <cstring>
#include <string>
#include <string_view>

#include "out/documents.h"

using namespace fmt::literals;

// ---- The values. They stand ready in memory, and `hidden` hides from the compiler what they are.

template <class T>
const T &hidden(const T &value) {
    const T *place = &value;
    asm volatile("" : "+r"(place) : : "memory");
    return *place;
}

struct Log {
    std::string_view time, level, module, message;
    uint64_t line;
};

static const Log LOG{"2024-05-17T12:34:56Z", "INFO", "store::index",
                     "rebuilt the index of all orders", 217};

static const uint32_t NUMBERS[32] = {0,   1,   2,   3,   5,   8,  13, 21, 34, 55, 89,
                                     144, 233, 377, 610, 987, 4,  6,  9,  10, 12, 14,
                                     15,  16,  18,  20,  22,  24, 25, 26, 27, 28};

// The same numbers in a signed type, and numbers below zero.
static const int64_t SIGNED_NUMBERS[32] = {0,   1,   2,   3,   5,   8,  13, 21, 34, 55, 89,
                                           144, 233, 377, 610, 987, 4,  6,  9,  10, 12, 14,
                                           15,  16,  18,  20,  22,  24, 25, 26, 27, 28};

static const int64_t NEGATIVE_NUMBERS[32] = {
    -7, -1, -2, -3,  -5,  -8,  -13, -21, -34, -55, -89, -144, -233, -377, -610, -987,
    -4, -6, -9, -10, -12, -14, -15, -16, -18, -20, -22, -24,  -25,  -26,  -27,  -28};

static const std::string_view TEXTS[18] = {"Ann Svensson",
                                           "Dr",
                                           "Long Street 12",
                                           "Oslo",
                                           "Norway",
                                           "555-0199",
                                           "ann@example.org",
                                           "Acme",
                                           "baker",
                                           "bread",
                                           "Dear",
                                           "Yours",
                                           "Bob",
                                           "North",
                                           "B4",
                                           "2024-05-17",
                                           "Bergen",
                                           "onwards"};

struct Order {
    uint64_t order;
    std::string_view placed, name, mail, street, city;
    uint64_t points;
    std::string_view goods;
    uint64_t count;
    std::string_view amount, currency, until;
};

static const Order ORDER{48213,
                         "2024-05-17",
                         "Ann Svensson",
                         "ann@example.org",
                         "Long Street 12",
                         "Oslo",
                         1250,
                         "rye with caraway",
                         3,
                         "147.50",
                         "NOK",
                         "2024-05-31"};

struct Letter {
    uint64_t order;
    std::string_view company, shop, street;
    uint64_t postcode;
    std::string_view city, country, date, title, name, goods;
    uint64_t count;
    std::string_view amount, closing, sender;
};

static const Letter LETTER_VALUES{48213,
                                  "The Corner Bakery",
                                  "bakery.example",
                                  "Long Street 12",
                                  457,
                                  "Oslo",
                                  "Norway",
                                  "17 May 2024",
                                  "Dr",
                                  "Svensson",
                                  "rye with caraway",
                                  3,
                                  "147.50",
                                  "Yours",
                                  "Bob Baker"};

struct Row {
    uint64_t id;
    std::string_view goods, city;
    uint64_t count;
    std::string_view price;
    int64_t change;
    uint64_t code;
    std::string_view name;
};

static const Row ROW{48213, "rye", "Oslo", 3, "147.50", -12, 48879, "Ann Svensson"};

static const double AMOUNTS[4] = {12345.67, 2469.1340, -14000.0, 814.80};
static const double FLOATS[4] = {59.9139, 10.7522, 0.1, 1234.5};
static const double WHOLE_FLOATS[4] = {1500.0, 42.0, 1000000.0, 86400.0};
static const double COORDINATES[4] = {59.913869, 10.752245, -33.86882, 151.20929};
static const double FAR_FLOATS[4] = {6.398739211747873e-150, -2.7105054312137611e-120,
                                     8.345216793071533e-200, 3.141592653589793e-101};
static const double ANY_FLOATS[4] = {1.1502657903799078e224, -5.868472719237263e-13,
                                     -8.062156064994877e-84, 1.0146145319903965e82};

static const int64_t SIGNED[4] = {0, 7, -42, 12345};

static const uint32_t BITS[4] = {5, 255, 4096, 48879};

static const std::string_view WORDS[6] = {"é", "naïve", "smörgåsbord", "日本語", "Привет", "plain"};

struct Wide {
    std::string_view text;
    uint32_t number;
};

static const Wide WIDE{"wide", 42};

static const uint64_t LONG[10] = {1234567890u,         98765432109u,       123456789012u,
                                  9876543210987u,      12345678901234u,    987654321098765u,
                                  1234567890123456u,   98765432109876543u, 123456789012345678u,
                                  9876543210987654321u};

struct Thousand {
    uint32_t numbers[1000];
    constexpr Thousand() : numbers() {
        for (uint32_t next = 0; next < 1000; next++) numbers[next] = next;
    }
};

static constexpr Thousand THOUSAND;

struct Record {
    std::string_view name, city, goods;
    uint32_t count, order;
};

static Record record_of(uint32_t order) {
    static const std::string_view names[] = {"Ann", "Bob", "Carla", "Dmitri", "Eve"};
    static const std::string_view cities[] = {"Oslo", "Lima", "Kyoto"};
    static const std::string_view goods[] = {"loaves", "rolls", "cakes", "pies"};
    return {names[order % 5], cities[order % 3], goods[order % 4], order % 90 + 10, order};
}

// ---- What keeps its room from text to text.

struct Out {
    fmt::memory_buffer buffer;
    char *array = new char[1 << 20];
    size_t len = 0;
    std::string text;
};

using Make = void (*)(Out &);

// All elements of an array, as arguments of a call.
#define ALL_4(v) v[0], v[1], v[2], v[3]
#define ALL_6(v) ALL_4(v), v[4], v[5]
#define ALL_18(v) \
    ALL_6(v), v[6], v[7], v[8], v[9], v[10], v[11], v[12], v[13], v[14], v[15], v[16], v[17]
#define ALL_32(v)                                                                                  \
    ALL_18(v), v[18], v[19], v[20], v[21], v[22], v[23], v[24], v[25], v[26], v[27], v[28], v[29], \
        v[30], v[31]

// A format again and again.
#define TWICE(format) format format
#define TIMES_4(format) TWICE(format) TWICE(format)
#define TIMES_18(format) \
    TIMES_4(format) TIMES_4(format) TIMES_4(format) TIMES_4(format) TWICE(format)
#define TIMES_32(format) TIMES_4(TWICE(TIMES_4(format)))

// ---- By {fmt}, whose buffer keeps its room and looks for room before each piece, as the texts of
// the benchmark do. An array without such a look takes far less, and a std::string mostly more.

#define PUT(format, ...) fmt::format_to(fmt::appender(out.buffer), FMT_COMPILE(format), __VA_ARGS__)

static void fmt_log_line(Out &out) {
    const Log &v = hidden(LOG);
    PUT("{} {} [{}] {} (line {})", v.time, v.level, v.module, v.message, v.line);
}

static void fmt_numbers(Out &out) {
    const auto &v = hidden(NUMBERS);
    PUT(TIMES_32("{} "), ALL_32(v));
}

static void fmt_signed(Out &out) {
    const auto &v = hidden(SIGNED_NUMBERS);
    PUT(TIMES_32("{} "), ALL_32(v));
}

static void fmt_negative(Out &out) {
    const auto &v = hidden(NEGATIVE_NUMBERS);
    PUT(TIMES_32("{} "), ALL_32(v));
}

static void fmt_texts(Out &out) {
    const auto &v = hidden(TEXTS);
    PUT(TIMES_18("{} "), ALL_18(v));
}

#define LETTER_ARGUMENTS(v)                                                                      \
    "order"_a = v.order, "company"_a = v.company, "shop"_a = v.shop, "street"_a = v.street,      \
    "postcode"_a = v.postcode, "city"_a = v.city, "country"_a = v.country, "date"_a = v.date,    \
    "title"_a = v.title, "name"_a = v.name, "goods"_a = v.goods, "count"_a = v.count,            \
    "amount"_a = v.amount, "closing"_a = v.closing, "sender"_a = v.sender

static void fmt_letter(Out &out) {
    const Letter &v = hidden(LETTER_VALUES);
    PUT(LETTER, LETTER_ARGUMENTS(v));
}

#define JSON_ARGUMENTS(v)                                                                        \
    "order"_a = v.order, "placed"_a = v.placed, "name"_a = v.name, "mail"_a = v.mail,            \
    "street"_a = v.street, "city"_a = v.city, "points"_a = v.points, "goods"_a = v.goods,        \
    "count"_a = v.count, "amount"_a = v.amount, "currency"_a = v.currency, "until"_a = v.until

static void fmt_json(Out &out) {
    const Order &v = hidden(ORDER);
    PUT(JSON, JSON_ARGUMENTS(v));
}

static void fmt_row(Out &out) {
    const Row &v = hidden(ROW);
    PUT("{:>6}|{:<16}|{:^12}|{:5}|{:>10}|{:>+8}|{:#010x}|{:20}\n", v.id, v.goods, v.city, v.count,
        v.price, v.change, v.code, v.name);
}

static void fmt_amounts(Out &out) {
    const auto &v = hidden(AMOUNTS);
    PUT("net {:>10.2f} tax {:>10.2f} paid {:>10.2f} open {:>10.2f}", ALL_4(v));
}

// The exponents have three digits: {fmt} writes `e-05` for `e-5`.
#define FLOATS_BY(name, values, spec)                              \
    static void name(Out &out) {                                   \
        const auto &v = hidden(values);                            \
        PUT("{" spec "} {" spec "} {" spec "} {" spec "}", ALL_4(v)); \
    }

FLOATS_BY(fmt_floats, FLOATS, "")
FLOATS_BY(fmt_whole_floats, WHOLE_FLOATS, "")
FLOATS_BY(fmt_coordinates, COORDINATES, "")
FLOATS_BY(fmt_far_floats, FAR_FLOATS, "")
FLOATS_BY(fmt_long_floats, FAR_FLOATS, ":.17e")

// In a file of its own, since in this one it changes what the compiler inlines elsewhere.
void put_any_floats(fmt::memory_buffer &buffer, const double *v);

static void fmt_any_floats(Out &out) {
    put_any_floats(out.buffer, hidden(ANY_FLOATS));
}

static void fmt_specs(Out &out) {
    const auto &v = hidden(SIGNED);
#define SPECS(n) \
    "{" n "} {" n ":+} {" n ":6} {" n ":06} {" n ":+08} {" n ":<8} {" n ":^9} {" n ":>+12} "
    PUT(SPECS("0") SPECS("1") SPECS("2") SPECS("3"), ALL_4(v));
}

// The `0o` stands in the format, since {fmt} writes `{:#o}` with another prefix, `0`.
static void fmt_radix(Out &out) {
    const auto &v = hidden(BITS);
#define BASES(n) \
    "{" n ":b} {" n ":o} {" n ":x} {" n ":X} {" n ":#b} 0o{" n ":o} {" n ":#010x} {" n ":8X} "
    PUT(BASES("0") BASES("1") BASES("2") BASES("3"), ALL_4(v));
}

// The texts of these three are others: {fmt} takes each character of `日本語` as two columns.
#define WIDTHS(n, fill) "{" n ":" fill "<12} {" n ":" fill ">16} {" n ":" fill "^10.4} "
#define ALL_WIDTHS(fill) \
    WIDTHS("0", fill)    \
    WIDTHS("1", fill) WIDTHS("2", fill) WIDTHS("3", fill) WIDTHS("4", fill) WIDTHS("5", fill)

static void fmt_padded(Out &out) {
    const auto &v = hidden(WORDS);
    PUT(ALL_WIDTHS(""), ALL_6(v));
}

static void fmt_starred(Out &out) {
    const auto &v = hidden(WORDS);
    PUT(ALL_WIDTHS("*"), ALL_6(v));
}

static void fmt_accented(Out &out) {
    const auto &v = hidden(WORDS);
    PUT(ALL_WIDTHS("é"), ALL_6(v));
}

static void fmt_wide(Out &out) {
    const Wide &v = hidden(WIDE);
    PUT("{0:1000} {0:<1000} {0:^1000} {0:>1000} {0:<1000} {1:1000} {1:<1000} {1:^1000} {1:>1000} "
        "{1:01000} ",
        v.text, v.number);
}

static void fmt_wide_accents(Out &out) {
    const Wide &v = hidden(WIDE);
    PUT("{0:é<1000} {0:é^1000} {0:é>1000} {1:é<1000} {1:é^1000} {1:é>1000} ", v.text, v.number);
}

static void fmt_long_digits(Out &out) {
    for (uint64_t number : hidden(LONG)) PUT("{}", number);
}

static void fmt_long_decimals(Out &out) {
    for (uint64_t number : hidden(LONG)) PUT("{}.{:02}", number / 100, number % 100);
}

static void fmt_list(Out &out) {
    const Thousand &v = hidden(THOUSAND);
    PUT("{}", v.numbers[0]);
    for (size_t place = 1; place < 1000; place++) PUT(", {}", v.numbers[place]);
}

static void fmt_angled_list(Out &out) {
    for (uint32_t number : hidden(THOUSAND).numbers) PUT("<{}>", number);
}

static void fmt_merge(Out &out) {
    for (uint32_t order = 0; order < 10000; order++) {
        Record v = record_of(order);
        PUT("Dear {} of {}, your {} {} are order {}.\n", v.name, v.city, v.count, v.goods, v.order);
    }
}

// ---- By {fmt}, with a format that is read at run time, and named arguments.

#define RUN(format, ...)                                              \
    static const std::string_view text = format;                      \
    fmt::format_to(fmt::appender(out.buffer), fmt::runtime(hidden(text)), __VA_ARGS__)

#define BRACED_4(a, b, c, d) "{" a "} {" b "} {" c "} {" d "} "

static void run_log_line(Out &out) {
    const Log &v = hidden(LOG);
    RUN("{time} {level} [{module}] {message} (line {line})", "time"_a = v.time,
        "level"_a = v.level, "module"_a = v.module, "message"_a = v.message, "line"_a = v.line);
}

static void run_numbers(Out &out) {
    const auto &v = hidden(NUMBERS);
    RUN(BRACED_4("a", "b", "c", "d") BRACED_4("e", "f", "g", "h") BRACED_4("i", "j", "k", "l")
            BRACED_4("m", "n", "o", "p") BRACED_4("q", "r", "s", "t") BRACED_4("u", "v", "w", "x")
                BRACED_4("y", "z", "aa", "bb") BRACED_4("cc", "dd", "ee", "ff"),
        "a"_a = v[0], "b"_a = v[1], "c"_a = v[2], "d"_a = v[3], "e"_a = v[4], "f"_a = v[5],
        "g"_a = v[6], "h"_a = v[7], "i"_a = v[8], "j"_a = v[9], "k"_a = v[10], "l"_a = v[11],
        "m"_a = v[12], "n"_a = v[13], "o"_a = v[14], "p"_a = v[15], "q"_a = v[16], "r"_a = v[17],
        "s"_a = v[18], "t"_a = v[19], "u"_a = v[20], "v"_a = v[21], "w"_a = v[22], "x"_a = v[23],
        "y"_a = v[24], "z"_a = v[25], "aa"_a = v[26], "bb"_a = v[27], "cc"_a = v[28],
        "dd"_a = v[29], "ee"_a = v[30], "ff"_a = v[31]);
}

static void run_texts(Out &out) {
    const auto &v = hidden(TEXTS);
    RUN(BRACED_4("name", "title", "street", "city") BRACED_4("country", "phone", "email", "company")
            BRACED_4("job", "topic", "greeting", "closing")
                BRACED_4("sender", "office", "unit", "date") "{place} {motto} ",
        "name"_a = v[0], "title"_a = v[1], "street"_a = v[2], "city"_a = v[3], "country"_a = v[4],
        "phone"_a = v[5], "email"_a = v[6], "company"_a = v[7], "job"_a = v[8], "topic"_a = v[9],
        "greeting"_a = v[10], "closing"_a = v[11], "sender"_a = v[12], "office"_a = v[13],
        "unit"_a = v[14], "date"_a = v[15], "place"_a = v[16], "motto"_a = v[17]);
}

static void run_letter(Out &out) {
    const Letter &v = hidden(LETTER_VALUES);
    RUN(LETTER, LETTER_ARGUMENTS(v));
}

static void run_json(Out &out) {
    const Order &v = hidden(ORDER);
    RUN(JSON, JSON_ARGUMENTS(v));
}

static void run_row(Out &out) {
    const Row &v = hidden(ROW);
    RUN("{id:>6}|{goods:<16}|{city:^12}|{count:5}|{price:>10}|{change:>+8}|{code:#010x}|{name:20}"
        "\n",
        "id"_a = v.id, "goods"_a = v.goods, "city"_a = v.city, "count"_a = v.count,
        "price"_a = v.price, "change"_a = v.change, "code"_a = v.code, "name"_a = v.name);
}

static void run_amounts(Out &out) {
    const auto &v = hidden(AMOUNTS);
    RUN("net {net:>10.2f} tax {tax:>10.2f} paid {paid:>10.2f} open {open:>10.2f}", "net"_a = v[0],
        "tax"_a = v[1], "paid"_a = v[2], "open"_a = v[3]);
}

#define NAMED_4(v) "a"_a = v[0], "b"_a = v[1], "c"_a = v[2], "d"_a = v[3]

static void run_specs(Out &out) {
    const auto &v = hidden(SIGNED);
    RUN(SPECS("a") SPECS("b") SPECS("c") SPECS("d"), NAMED_4(v));
}

static void run_radix(Out &out) {
    const auto &v = hidden(BITS);
    RUN(BASES("a") BASES("b") BASES("c") BASES("d"), NAMED_4(v));
}

static void run_list(Out &out) {
    const Thousand &v = hidden(THOUSAND);
    RUN("{numbers}", "numbers"_a = fmt::join(v.numbers, ", "));
}

static void run_angled_list(Out &out) {
    const Thousand &v = hidden(THOUSAND);
    RUN("<{numbers}>", "numbers"_a = fmt::join(v.numbers, "><"));
}

static void run_merge(Out &out) {
    for (uint32_t order = 0; order < 10000; order++) {
        Record v = record_of(order);
        RUN("Dear {name} of {city}, your {count} {goods} are order {order}.\n", "name"_a = v.name,
            "city"_a = v.city, "count"_a = v.count, "goods"_a = v.goods, "order"_a = v.order);
    }
}

// ---- By snprintf, for which a text ends in a zero.

#define PRINT(...) out.len += snprintf(out.array + out.len, (1 << 20) - out.len, __VA_ARGS__)

#define C(text) (text).data()

// Appends a text in the middle of a width: printf has no such spec.
static void c_centred(Out &out, const char *text, int len, int width) {
    int free = width > len ? width - len : 0;
    PRINT("%*s%s%*s", free / 2, "", text, free - free / 2, "");
}

static void c_log_line(Out &out) {
    const Log &v = hidden(LOG);
    PRINT("%s %s [%s] %s (line %lu)", C(v.time), C(v.level), C(v.module), C(v.message), v.line);
}

static void c_numbers(Out &out) {
    const auto &v = hidden(NUMBERS);
    PRINT(TIMES_32("%u "), ALL_32(v));
}

static void c_signed(Out &out) {
    const auto &v = hidden(SIGNED_NUMBERS);
    PRINT(TIMES_32("%ld "), ALL_32(v));
}

static void c_negative(Out &out) {
    const auto &v = hidden(NEGATIVE_NUMBERS);
    PRINT(TIMES_32("%ld "), ALL_32(v));
}

static void c_texts(Out &out) {
    const auto &v = hidden(TEXTS);
    PRINT(TIMES_18("%s "), C(v[0]), C(v[1]), C(v[2]), C(v[3]), C(v[4]), C(v[5]), C(v[6]), C(v[7]),
          C(v[8]), C(v[9]), C(v[10]), C(v[11]), C(v[12]), C(v[13]), C(v[14]), C(v[15]), C(v[16]),
          C(v[17]));
}

static void c_letter(Out &out) {
    const Letter &v = hidden(LETTER_VALUES);
    PRINT(LETTER_PRINTF, v.order, C(v.company), C(v.shop), C(v.street), v.postcode, C(v.city),
          C(v.country), C(v.date), C(v.title), C(v.name), C(v.goods), v.count, C(v.amount),
          C(v.closing), C(v.sender));
}

static void c_json(Out &out) {
    const Order &v = hidden(ORDER);
    PRINT(JSON_PRINTF, v.order, C(v.placed), C(v.name), C(v.mail), C(v.street), C(v.city), v.points,
          C(v.goods), v.count, C(v.amount), C(v.currency), C(v.until));
}

static void c_row(Out &out) {
    const Row &v = hidden(ROW);
    int free = 12 - int(strlen(C(v.city)));
    PRINT("%6lu|%-16s|%*s%s%*s|%5lu|%10s|%+8ld|%#010lx|%-20s\n", v.id, C(v.goods), free / 2, "",
          C(v.city), free - free / 2, "", v.count, C(v.price), v.change, v.code, C(v.name));
}

static void c_amounts(Out &out) {
    const auto &v = hidden(AMOUNTS);
    PRINT("net %10.2f tax %10.2f paid %10.2f open %10.2f", ALL_4(v));
}

static void c_specs(Out &out) {
    for (int64_t number : hidden(SIGNED)) {
        PRINT("%ld %+ld %6ld %06ld %+08ld %-8ld ", number, number, number, number, number, number);
        char digits[24];
        int len = snprintf(digits, sizeof digits, "%ld", number);
        c_centred(out, digits, len, 9);
        PRINT(" %+12ld ", number);
    }
}

// glibc has `%b` since 2.35; `%#o` has the prefix `0`.
static void c_radix(Out &out) {
    for (uint32_t n : hidden(BITS))
        PRINT("%b %o %x %X %#b 0o%o %#010x %8X ", n, n, n, n, n, n, n, n);
}

static void c_wide(Out &out) {
    const Wide &v = hidden(WIDE);
    PRINT("%-1000s %-1000s ", C(v.text), C(v.text));
    c_centred(out, C(v.text), int(strlen(C(v.text))), 1000);
    PRINT(" %1000s %-1000s %1000u %-1000u ", C(v.text), C(v.text), v.number, v.number);
    char digits[24];
    int len = snprintf(digits, sizeof digits, "%u", v.number);
    c_centred(out, digits, len, 1000);
    PRINT(" %1000u %01000u ", v.number, v.number);
}

static void c_long_digits(Out &out) {
    for (uint64_t number : hidden(LONG)) PRINT("%lu", number);
}

static void c_long_decimals(Out &out) {
    for (uint64_t number : hidden(LONG)) PRINT("%lu.%02lu", number / 100, number % 100);
}

static void c_list(Out &out) {
    const Thousand &v = hidden(THOUSAND);
    PRINT("%u", v.numbers[0]);
    for (size_t place = 1; place < 1000; place++) PRINT(", %u", v.numbers[place]);
}

static void c_angled_list(Out &out) {
    for (uint32_t number : hidden(THOUSAND).numbers) PRINT("<%u>", number);
}

static void c_merge(Out &out) {
    for (uint32_t order = 0; order < 10000; order++) {
        Record v = record_of(order);
        PRINT("Dear %s of %s, your %u %s are order %u.\n", C(v.name), C(v.city), v.count,
              C(v.goods), v.order);
    }
}

// ---- By Abseil: StrAppend, and StrAppendFormat where there are widths. Neither writes base two,
// which `radix` has.

// Abseil as Debian builds it has a view of its own.
static absl::string_view a(std::string_view text) {
    return {text.data(), text.size()};
}

template <class T>
static T a(T number) {
    return number;
}

#define APPEND(...) absl::StrAppend(&out.text, __VA_ARGS__)

#define APPEND_FORMAT(...) absl::StrAppendFormat(&out.text, __VA_ARGS__)

// Elements of an array from a place on, each with a space after it.
#define SPACED_2(v, n) a(v[n]), " ", a(v[(n) + 1]), " "
#define SPACED_4(v, n) SPACED_2(v, n), SPACED_2(v, (n) + 2)
#define SPACED_16(v, n) \
    SPACED_4(v, n), SPACED_4(v, (n) + 4), SPACED_4(v, (n) + 8), SPACED_4(v, (n) + 12)

static void absl_log_line(Out &out) {
    const Log &v = hidden(LOG);
    APPEND(a(v.time), " ", a(v.level), " [", a(v.module), "] ", a(v.message), " (line ", v.line,
           ")");
}

static void absl_numbers(Out &out) {
    const auto &v = hidden(NUMBERS);
    APPEND(SPACED_16(v, 0), SPACED_16(v, 16));
}

static void absl_signed(Out &out) {
    const auto &v = hidden(SIGNED_NUMBERS);
    APPEND(SPACED_16(v, 0), SPACED_16(v, 16));
}

static void absl_negative(Out &out) {
    const auto &v = hidden(NEGATIVE_NUMBERS);
    APPEND(SPACED_16(v, 0), SPACED_16(v, 16));
}

static void absl_texts(Out &out) {
    const auto &v = hidden(TEXTS);
    APPEND(SPACED_16(v, 0), SPACED_2(v, 16));
}

#define ABSL_TEXT(text) , text
#define ABSL_VALUE(name) , a(v.name)

static void absl_letter(Out &out) {
    const Letter &v = hidden(LETTER_VALUES);
    absl::StrAppend(&out.text LETTER_PIECES(ABSL_TEXT, ABSL_VALUE));
}

static void absl_json(Out &out) {
    const Order &v = hidden(ORDER);
    absl::StrAppend(&out.text JSON_PIECES(ABSL_TEXT, ABSL_VALUE));
}

static void absl_row(Out &out) {
    const Row &v = hidden(ROW);
    int free = 12 - int(v.city.size());
    APPEND_FORMAT("%6u|%-16s|%*s%s%*s|%5u|%10s|%+8d|%#010x|%-20s\n", v.id, a(v.goods), free / 2, "",
                  a(v.city), free - free / 2, "", v.count, a(v.price), v.change, v.code, a(v.name));
}

static void absl_amounts(Out &out) {
    const auto &v = hidden(AMOUNTS);
    APPEND_FORMAT("net %10.2f tax %10.2f paid %10.2f open %10.2f", ALL_4(v));
}

static void absl_specs(Out &out) {
    for (int64_t number : hidden(SIGNED)) {
        absl::AlphaNum digits(number);
        int free = digits.size() < 9 ? 9 - int(digits.size()) : 0;
        APPEND_FORMAT("%d %+d %6d %06d %+08d %-8d %*s%d%*s %+12d ", number, number, number, number,
                      number, number, free / 2, "", number, free - free / 2, "", number);
    }
}

static void absl_long_digits(Out &out) {
    for (uint64_t number : hidden(LONG)) APPEND(number);
}

static void absl_long_decimals(Out &out) {
    for (uint64_t number : hidden(LONG))
        APPEND(number / 100, ".", absl::Dec(number % 100, absl::kZeroPad2));
}

static void absl_list(Out &out) {
    const Thousand &v = hidden(THOUSAND);
    APPEND(v.numbers[0]);
    for (size_t place = 1; place < 1000; place++) APPEND(", ", v.numbers[place]);
}

static void absl_angled_list(Out &out) {
    for (uint32_t number : hidden(THOUSAND).numbers) APPEND("<", number, ">");
}

static void absl_merge(Out &out) {
    for (uint32_t order = 0; order < 10000; order++) {
        Record v = record_of(order);
        APPEND("Dear ", a(v.name), " of ", a(v.city), ", your ", v.count, " ", a(v.goods),
               " are order ", v.order, ".\n");
    }
}

static const struct {
    std::string_view name;
    Make make;
} WORKLOADS[] = {
    {"fmt-log-line", fmt_log_line},
    {"fmt-names-32-numbers", fmt_numbers},
    {"fmt-names-32-signed", fmt_signed},
    {"fmt-names-32-negative", fmt_negative},
    {"fmt-names-18-texts", fmt_texts},
    {"fmt-letter-4k", fmt_letter},
    {"fmt-json", fmt_json},
    {"fmt-table-row", fmt_row},
    {"fmt-amounts", fmt_amounts},
    {"fmt-floats", fmt_floats},
    {"fmt-floats-whole", fmt_whole_floats},
    {"fmt-floats-coordinates", fmt_coordinates},
    {"fmt-floats-far", fmt_far_floats},
    {"fmt-floats-far-17", fmt_long_floats},
    {"fmt-floats-any-17", fmt_any_floats},
    {"fmt-specs", fmt_specs},
    {"fmt-radix", fmt_radix},
    {"fmt-padded-texts", fmt_padded},
    {"fmt-starred-texts", fmt_starred},
    {"fmt-accented-texts", fmt_accented},
    {"fmt-wide", fmt_wide},
    {"fmt-wide-accents", fmt_wide_accents},
    {"fmt-long-digits", fmt_long_digits},
    {"fmt-long-decimals", fmt_long_decimals},
    {"fmt-list-1000", fmt_list},
    {"fmt-list-1000-angled", fmt_angled_list},
    {"fmt-merge-10000-pairs", fmt_merge},
    {"run-log-line", run_log_line},
    {"run-names-32-numbers", run_numbers},
    {"run-names-18-texts", run_texts},
    {"run-letter-4k", run_letter},
    {"run-json", run_json},
    {"run-table-row", run_row},
    {"run-amounts", run_amounts},
    {"run-specs", run_specs},
    {"run-radix", run_radix},
    {"run-list-1000", run_list},
    {"run-list-1000-angled", run_angled_list},
    {"run-merge-10000-pairs", run_merge},
    {"snprintf-log-line", c_log_line},
    {"snprintf-names-32-numbers", c_numbers},
    {"snprintf-names-32-signed", c_signed},
    {"snprintf-names-32-negative", c_negative},
    {"snprintf-names-18-texts", c_texts},
    {"snprintf-letter-4k", c_letter},
    {"snprintf-json", c_json},
    {"snprintf-table-row", c_row},
    {"snprintf-amounts", c_amounts},
    {"snprintf-specs", c_specs},
    {"snprintf-radix", c_radix},
    {"snprintf-wide", c_wide},
    {"snprintf-long-digits", c_long_digits},
    {"snprintf-long-decimals", c_long_decimals},
    {"snprintf-list-1000", c_list},
    {"snprintf-list-1000-angled", c_angled_list},
    {"snprintf-merge-10000-pairs", c_merge},
    {"absl-log-line", absl_log_line},
    {"absl-names-32-numbers", absl_numbers},
    {"absl-names-32-signed", absl_signed},
    {"absl-names-32-negative", absl_negative},
    {"absl-names-18-texts", absl_texts},
    {"absl-letter-4k", absl_letter},
    {"absl-json", absl_json},
    {"absl-table-row", absl_row},
    {"absl-amounts", absl_amounts},
    {"absl-specs", absl_specs},
    {"absl-long-digits", absl_long_digits},
    {"absl-long-decimals", absl_long_decimals},
    {"absl-list-1000", absl_list},
    {"absl-list-1000-angled", absl_angled_list},
    {"absl-merge-10000-pairs", absl_merge},
};

// The FNV-1a hash of the text's bytes, of 64 bits.
static uint64_t checksum_of(std::string_view text) {
    uint64_t sum = 0xcbf29ce484222325;
    for (unsigned char byte : text) sum = (sum ^ byte) * 0x100000001b3;
    return sum;
}

static void repeat(std::string_view name, Make make, long count) {
    Out out;
    for (long done = 0; done < count; done++) {
        out.buffer.clear();
        out.len = 0;
        out.text.clear();
        make(out);
    }
    // Two of these are empty.
    std::string text(out.buffer.data(), out.buffer.size());
    text.append(out.array, out.len).append(out.text);
    printf("%s: %zu bytes, checksum %016lx\n", name.data(), text.size(), checksum_of(text));
}

int main(int count, char **words) {
    for (const auto &workload : WORKLOADS) {
        if (count != 3) {
            puts(workload.name.data());
        } else if (workload.name == words[1]) {
            repeat(workload.name, workload.make, atol(words[2]));
            return 0;
        }
    }
    return count == 3 ? 2 : 0;
}
