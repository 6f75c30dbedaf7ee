// The calls of pairing.h as a table, for tests that go over all of them; tools/interface makes its rows from the header. A
// switch over the names that has no case for a call does not compile, since warnings are errors.
#ifndef INTERFACE_HPP
#define INTERFACE_HPP

#include "pairing.h"

#include <cstddef>
#include <cstdint>
#include <vector>

namespace interface {

enum class Name {
#include "names.inc"
};

// A buffer as it is lent.
struct Lent {
    std::uint8_t *at;
    std::size_t size;
};

struct Buffer {
    const char *name;
    bool written;
};

// A call with its buffers and numbers in order.
struct Call {
    Name name;
    const char *text;
    std::vector<Buffer> buffers;
    std::vector<const char *> numbers;
    std::uint32_t (*make)(const Lent *, const std::uint64_t *);
};

inline const std::vector<Call> calls = {
#include "rows.inc"
};

}  // namespace interface

#endif
