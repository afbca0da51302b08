// The text `floats-any-17` by {fmt}, for peers.cpp.
#include <fmt/compile.h>

void put_any_floats(fmt::memory_buffer &buffer, const double *v) {
    fmt::format_to(fmt::appender(buffer), FMT_COMPILE("{:.17f} {:.17f} {:.17f} {:.17f}"), v[0],
                   v[1], v[2], v[3]);
}
