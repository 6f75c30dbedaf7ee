// Counts what is allocated, for the test that a call allocates nothing. In a file of its own, so that no use of these
// operators is inlined.
#include "harness.hpp"

#include <atomic>
#include <cstdlib>
#include <new>

static std::atomic<std::size_t> allocated{0};

void *operator new(std::size_t size) {
    ++allocated;
    void *memory = std::malloc(size);
    if (!memory) std::abort();
    return memory;
}
void operator delete(void *memory) noexcept { std::free(memory); }
void operator delete(void *memory, std::size_t) noexcept { std::free(memory); }

std::size_t harness::allocations() { return allocated; }
