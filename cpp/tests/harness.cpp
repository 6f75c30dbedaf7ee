#include "harness.hpp"

#include <atomic>
#include <cstdio>
#include <cstdlib>
#include <initializer_list>
#include <map>

static std::atomic<std::size_t> calls_of_engine{0};
static std::atomic<bool> all_valid{true};

static void seen(std::initializer_list<const std::uint8_t *> pointers) {
    ++calls_of_engine;
    for (const std::uint8_t *pointer : pointers)
        if (!pointer) all_valid = false;
}

// The linker sends each call of the engine through functions that tell it here (--wrap), so that tests see what reaches it.
#include "watched.inc"

namespace harness {

using namespace pairing;

std::string replay;
static int failures = 0;

std::size_t engine_calls() { return calls_of_engine; }
bool pointers_valid() { return all_valid; }

std::vector<Test> &tests() {
    static std::vector<Test> all;
    return all;
}

void check(bool holds, const char *what, const char *file, int line) {
    if (holds) return;
    ++failures;
    std::printf("%s:%d: does not hold: %s\n", file, line, what);
}

Node node(int number, int horizontal, int vertical, int capacity, Sort sort) {
    return {number, horizontal, vertical, capacity, sort};
}

int Random::below(int end) {
    state = state * 1664525u + 1013904223u;
    return static_cast<int>((state >> 8) % static_cast<std::uint32_t>(end));
}

std::vector<Node> some_nodes(Random &random, int count, Sorts sorts) {
    std::vector<Node> nodes;
    for (int k = 1; k <= count; ++k) {
        const int x = random.below(200) - 100, y = random.below(200) - 100, capacity = 1 + random.below(5);
        const bool handle = sorts == Sorts::with_handles && random.below(2) == 1;
        nodes.push_back(node(3 * k, x, y, capacity, handle ? Sort::off_curve : Sort::on_curve));
    }
    return nodes;
}

std::vector<Link> links_of(const Drawing &drawing) { return {drawing.links().begin(), drawing.links().end()}; }

World e7() {
    World world;
    world.a[0] = node(1, 0, 0);
    world.a[1] = node(2, 3, 0, 2);
    world.b[0] = node(1, 1, 0, 2);
    world.b[1] = node(2, 7, 0);
    CHECK(is_done(pair(world.a, world.b, world.list), 3));
    return world;
}

Memory copy(ConstBytes bytes) { return {bytes.begin(), bytes.end()}; }

bool is(const Outcome &outcome, Refusal refusal, std::uint32_t value) {
    return outcome.refusal() == refusal && outcome.value() == value && outcome.done() == (refusal == Refusal::none);
}

bool is_done(const Outcome &outcome, std::uint32_t value) { return is(outcome, Refusal::none, value); }

static Outcome made(interface::Name name, const std::vector<Bytes> &v) {
    using interface::Name;
    switch (name) {
        case Name::pair: return pair(v[0], v[1], v[2]);
        case Name::step: return step(v[0], v[1], v[2]);
        case Name::edit: return edit(v[0], v[1], v[2], v[3]);
        case Name::spare: return spare(v[0], v[1], v[2], Master::a, 1);
        case Name::bands: return bands(v[0], v[1], v[2], v[3]);
    }
    std::abort();
}

// What is lent where all is well, by the buffer's name in pairing.h; its length is the stated one.
static Memory good(const std::string &name) {
    static const World world = e7();
    static const std::map<std::string, Memory> all = {{"a", copy(world.a)},
                                                      {"b", copy(world.b)},
                                                      {"list", copy(world.list)},
                                                      {"edit", copy(Edit::move(Master::a, 1, 5, 0))},
                                                      {"counts", copy(world.counts)}};
    const auto found = all.find(name);
    if (found != all.end()) return found->second;
    std::printf("no bytes for a buffer of the name %s\n", name.c_str());
    std::abort();
}

static std::vector<Call> all_calls() {
    std::vector<Call> all;
    for (const interface::Call &call : interface::calls) {
        Call one = {call.name, {}, {}, {}};
        for (const interface::Buffer &buffer : call.buffers) {
            one.lent.push_back(good(buffer.name));
            one.sizes.push_back(one.lent.back().size());
            one.written.push_back(buffer.written);
        }
        all.push_back(one);
    }
    return all;
}

const std::vector<Call> &calls() {
    static const std::vector<Call> all = all_calls();
    return all;
}

Outcome Call::run(const std::vector<Bytes> &views) const { return made(name, views); }

}  // namespace harness

int main(int count, char **words) {
    if (count > 1) harness::replay = words[1];
    int passed = 0, failed = 0;
    for (const harness::Test &test : harness::tests()) {
        harness::failures = 0;
        test.run();
        const bool good = harness::failures == 0;
        ++(good ? passed : failed);
        std::printf("test %s: %s\n", test.name, good ? "ok" : "FAILED");
        std::fflush(stdout);
    }
    std::printf("%d passed, %d failed\n", passed, failed);
    return failed == 0 && passed > 0 ? 0 : 1;
}
