// Tests that report themselves: a line each, and the counts last.
#ifndef HARNESS_HPP
#define HARNESS_HPP

#include "interface.hpp"
#include "pairing.hpp"

#include <string>
#include <vector>

namespace harness {

struct Test {
    const char *name;
    void (*run)();
};

std::vector<Test> &tests();
void check(bool holds, const char *what, const char *file, int line);

struct Registered {
    Registered(const char *name, void (*run)()) { tests().push_back({name, run}); }
};

// How often memory was allocated so far.
std::size_t allocations();
// How often the engine was called so far, and whether no pointer that it was given was null.
std::size_t engine_calls();
bool pointers_valid();

// Where the replay program stands; empty where none is given.
extern std::string replay;

using Memory = std::vector<std::uint8_t>;

// Buffers of E7: two nodes each, three links.
struct World {
    pairing::Table a, b;
    pairing::List list;
    pairing::Counts counts;
};
World e7();
pairing::Node node(int number, int horizontal, int vertical, int capacity = 1,
                   pairing::Sort sort = pairing::Sort::on_curve);
Memory copy(pairing::ConstBytes bytes);
bool is(const pairing::Outcome &outcome, pairing::Refusal refusal, std::uint32_t value);
bool is_done(const pairing::Outcome &outcome, std::uint32_t value);

struct Random {
    std::uint32_t state;
    int below(int end);
};
// Nodes in a small field, numbered in threes; with handles about half of them are off-curve.
enum class Sorts { on_curve, with_handles };
std::vector<pairing::Node> some_nodes(Random &random, int count, Sorts sorts = Sorts::on_curve);
std::vector<pairing::Link> links_of(const pairing::Drawing &drawing);

// A call with its buffers in order, so that a test can go over all of them: good bytes for each, its stated size, and
// whether it is written.
struct Call {
    interface::Name name;
    std::vector<Memory> lent;
    std::vector<std::size_t> sizes;
    std::vector<bool> written;
    // Through the wrapper. Its other arguments are good ones.
    pairing::Outcome run(const std::vector<pairing::Bytes> &views) const;
};
const std::vector<Call> &calls();

}  // namespace harness

#define TEST(name)                                                      \
    static void name();                                                 \
    static const harness::Registered registered_##name(#name, name);    \
    static void name()
#define CHECK(what) harness::check((what), #what, __FILE__, __LINE__)

#endif
