// What the wrapper sees to: overlap of a written buffer with any other, null pointers and empty views.
#include "harness.hpp"

#include <cstdio>

using namespace pairing;
using harness::Call;

namespace {

std::size_t tried = 0;

// Lends buffers `one` and `other` of a call in one memory, with these sizes, the second so many bytes after the first
// or ahead of it; the rest for themselves. The wrapper has to refuse exactly where bytes are shared and one of the two
// is written, and then no byte has changed.
void lend(const Call &call, std::size_t one, std::size_t other, std::size_t one_size, std::size_t other_size,
          std::ptrdiff_t shift) {
    auto own = call.lent;
    std::vector<std::uint8_t> memory(4 * PAIRING_LIST_BYTES, 0xa5);
    std::uint8_t *start = memory.data() + 2 * PAIRING_LIST_BYTES;
    std::vector<Bytes> views(own.begin(), own.end());
    views[one] = {start, one_size};
    views[other] = {start + shift, other_size};
    const auto before = memory;
    const auto own_before = own;

    const bool behind = shift >= 0;
    const auto far = static_cast<std::size_t>(behind ? shift : -shift);
    const bool shared = one_size > 0 && other_size > 0 && far < (behind ? one_size : other_size);
    const bool refused = shared && (call.written[one] || call.written[other]);
    const std::size_t calls = harness::engine_calls();
    const Outcome outcome = call.run(views);
    CHECK((outcome.refusal() == Refusal::overlap) == refused);
    CHECK(harness::engine_calls() == calls + !refused);
    CHECK(outcome.refusal() != Refusal::null_pointer);
    if (refused) CHECK(outcome.value() == 0 && memory == before && own == own_before);
    ++tried;
}

}  // namespace

TEST(overlap_in_every_pair_and_direction) {
    tried = 0;
    for (const Call &call : harness::calls())
        for (std::size_t one = 0; one < call.sizes.size(); ++one)
            for (std::size_t other = 0; other < call.sizes.size(); ++other) {
                if (one == other) continue;
                const auto size = static_cast<std::ptrdiff_t>(call.sizes[one]);
                const auto other_size = static_cast<std::ptrdiff_t>(call.sizes[other]);
                // The same start, a byte on, the last byte shared, the first one, and only touching on either side.
                for (const std::ptrdiff_t shift : {std::ptrdiff_t{0}, std::ptrdiff_t{1}, std::ptrdiff_t{-1}, size - 1,
                                                   size, 1 - other_size, -other_size, size / 2, size - other_size})
                    lend(call, one, other, call.sizes[one], call.sizes[other], shift);
            }
    std::printf("overlap: %zu placements\n", tried);
    CHECK(tried > 300);
}

TEST(overlap_of_buffers_with_other_lengths) {
    for (const Call &call : harness::calls())
        for (std::size_t one = 0; one < call.sizes.size(); ++one)
            for (std::size_t other = 0; other < call.sizes.size(); ++other)
                for (const std::size_t size : {0u, 1u, 2u, 9u})
                    for (const std::ptrdiff_t shift : {-9, -2, -1, 0, 1, 2, 9})
                        if (one != other) lend(call, one, other, size, 2, shift);
}

// Buffers that are only read may be one and the same: the engine answers.
TEST(read_buffers_share) {
    harness::World world = harness::e7();
    const Table a = world.a;
    CHECK(harness::is_done(pair(a, a, world.list), 2));
    CHECK(harness::is_done(step(a, a, world.list), 0));
    CHECK(harness::is_done(spare(a, a, world.list, Master::b, 2), 0));
    CHECK(harness::is_done(bands(a, a, world.list, world.counts), 0));
    CHECK(world.counts[0] == 2);
    // A table within the list: of another length, so the engine refuses it.
    const ConstBytes list = world.list;
    CHECK(harness::is(spare(a, a, {list.data(), 10}, Master::a, 1), Refusal::length, 0));
    CHECK(harness::is(spare(list, list, list, Master::a, 1), Refusal::length, 0));
}

TEST(a_buffer_at_the_end_of_memory) {
    // Start and size add up to 0 modulo the size of memory; the other buffer lies far below.
    std::uint8_t low[16] = {};
    auto *high = reinterpret_cast<std::uint8_t *>(~std::uintptr_t{0} - 15);
    CHECK(!detail::overlap(detail::Lent(Bytes(high, 16)), detail::Lent(Bytes(low))));
    CHECK(!detail::overlap(detail::Lent(Bytes(low)), detail::Lent(Bytes(high, 16))));
    CHECK(detail::overlap(detail::Lent(Bytes(high, 16)), detail::Lent(Bytes(high + 15, 1))));
}

TEST(null_and_empty) {
    std::uint8_t one = 0x5a;
    for (const Call &call : harness::calls())
        for (std::size_t place = 0; place < call.sizes.size(); ++place) {
            auto own = call.lent;
            const auto before = own;
            std::vector<Bytes> views(own.begin(), own.end());
            for (const Bytes empty : {Bytes(), Bytes(nullptr, 0), Bytes(&one, 0), Bytes(own[place].data(), 0)}) {
                views[place] = empty;
                CHECK(harness::is(call.run(views), Refusal::length, 0));
            }
            for (const std::size_t size : {std::size_t{1}, call.sizes[place], ~std::size_t{0}}) {
                views[place] = {nullptr, size};
                const std::size_t calls = harness::engine_calls();
                CHECK(harness::is(call.run(views), Refusal::null_pointer, 0));
                CHECK(harness::engine_calls() == calls);
            }
            CHECK(own == before && one == 0x5a);
        }
    // All of them at once.
    for (const Call &call : harness::calls())
        CHECK(harness::is(call.run(std::vector<Bytes>(call.sizes.size())), Refusal::length, 0));
    CHECK(harness::pointers_valid());
}
