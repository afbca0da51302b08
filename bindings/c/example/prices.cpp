// A price in cents and a rate, under a format that somebody else writes: the digits are exact, and
// the format says how many of them there are.
//
//   prices [FORMAT CENTS]
#include "interpolator.hpp"

#include <cstdio>
#include <cstdlib>
#include <exception>
#include <stdexcept>
#include <string>

// The most characters that a format may write: a width may be any number, and who writes a format
// is not trusted.
constexpr std::size_t most = 1000000;

int main(int words, char **word) {
  const char *format =
      words > 1 ? word[1] : "{what}: {price:>10} each, {price:.0} rounded, {rate:+08.1}%";
  const long long cents = words > 2 ? std::strtoll(word[2], nullptr, 10) : 314;
  try {
    if (interpolator::cost(format, 64, 0).characters > most)
      throw std::length_error("the format writes too much");
    const std::string text = interpolator::format(
        format, {{"what", "pie"}, {"price", interpolator::decimal(cents, 2)}, {"rate", 2.25}});
    std::fwrite(text.data(), 1, text.size(), stdout);
    std::putchar('\n');
    return 0;
  } catch (const std::exception &fault) {
    std::fprintf(stderr, "prices: %s\n", fault.what());
    return 1;
  }
}
