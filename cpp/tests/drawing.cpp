// The class that owns its buffers, beside the calls on lent ones.
#include "harness.hpp"

#include <thread>

using namespace pairing;
using harness::is;
using harness::is_done;
using harness::links_of;
using harness::node;
using harness::Random;
using harness::some_nodes;
using harness::Sorts;

TEST(empty_drawing) {
    Drawing drawing;
    CHECK(drawing.light().size() == 0 && drawing.bold().size() == 0 && drawing.links().size() == 0);
    CHECK(is_done(drawing.edit(Edit::arrival(Master::a, node(1, 0, 0))), 0));
    CHECK(is_done(drawing.edit(Edit::arrival(Master::b, node(9, 2, 0))), 0));
    CHECK(drawing.links().size() == 1 && drawing.links()[0] == Link(1, 9, 4, 1));
}

TEST(load_is_refused_whole) {
    Random random{1};
    Drawing drawing;
    const std::vector<Node> good = some_nodes(random, 40), other = some_nodes(random, 30);
    CHECK(drawing.load(good, other).done());
    const auto links = links_of(drawing);
    std::vector<Node> twice = good, many(PAIRING_TABLE_ROWS + 1, node(1, 0, 0));
    twice[7] = twice[3];
    CHECK(is(drawing.load(good, twice), Refusal::table_b, 7));
    CHECK(is(drawing.load(many, good), Refusal::length, 0));
    CHECK(is(drawing.load(good, many), Refusal::length, 0));
    CHECK(is(drawing.load({nullptr, 1}, good), Refusal::null_pointer, 0));
    CHECK(drawing.light().size() == 40 && drawing.bold().size() == 30 && drawing.bold()[7] == other[7]);
    CHECK(links_of(drawing) == links && is_done(drawing.step(), 0));
}

TEST(full_load) {
    Random random{2};
    Drawing drawing;
    const auto light = some_nodes(random, PAIRING_TABLE_ROWS), bold = some_nodes(random, PAIRING_TABLE_ROWS);
    CHECK(drawing.load(light, bold).done());
    CHECK(drawing.light().size() == PAIRING_TABLE_ROWS && drawing.bold().size() == PAIRING_TABLE_ROWS);
    CHECK(drawing.links().size() < PAIRING_LIST_ROWS + 1 && drawing.links().size() >= PAIRING_TABLE_ROWS / 2);
}

TEST(steps_give_what_pair_gives) {
    Random random{3};
    Drawing drawing;
    CHECK(drawing.load(some_nodes(random, 50), some_nodes(random, 60)).done());
    const auto links = links_of(drawing);
    drawing.restart();
    std::size_t steps = 0;
    while (drawing.step().value() == 1) CHECK(drawing.links().size() == ++steps);
    CHECK(steps == links.size() && links_of(drawing) == links);
}

// Rows ahead of rows kept are as before, the row there is not, and the list is that of a fresh drawing.
static void edits_beside_fresh_drawings(Sorts sorts) {
    Random random{4};
    Drawing drawing;
    const bool loaded = drawing.load(some_nodes(random, 30, sorts), some_nodes(random, 30, sorts)).done();
    CHECK(loaded);
    std::size_t kept_some = 0;
    for (int count = 0; loaded && count < 200; ++count) {
        const auto before = links_of(drawing);
        const Master master = random.below(2) ? Master::b : Master::a;
        const View<const Node> nodes = master == Master::a ? drawing.light() : drawing.bold();
        const int place = random.below(static_cast<int>(nodes.size()));
        const int number = nodes[static_cast<std::size_t>(place)].number();
        const int x = random.below(200) - 100, y = random.below(200) - 100, capacity = 1 + random.below(6);
        const bool handle = sorts == Sorts::with_handles && random.below(2) == 1;
        const Sort sort = handle ? Sort::off_curve : Sort::on_curve;
        const Edit edits[] = {Edit::arrival(master, node(1000 + count, x, y, 2, sort)), Edit::departure(master, number),
                              Edit::move(master, number, x, y), Edit::new_capacity(master, number, capacity, sort)};
        const Outcome outcome = drawing.edit(edits[random.below(4)]);
        CHECK(outcome.done());
        const auto after = links_of(drawing);
        const std::size_t kept = outcome.value();
        CHECK(kept <= before.size() && kept <= after.size());
        for (std::size_t row = 0; row < kept; ++row) CHECK(before[row] == after[row]);
        if (kept < before.size() && kept < after.size()) CHECK(before[kept] != after[kept]);
        kept_some += kept > 0;
        Drawing fresh;
        CHECK(fresh.load(drawing.light(), drawing.bold()).done());
        CHECK(links_of(fresh) == after);
    }
    CHECK(kept_some > 50);
}

TEST(edits_give_what_a_fresh_drawing_has) { edits_beside_fresh_drawings(Sorts::on_curve); }

TEST(edits_of_both_sorts_give_what_a_fresh_drawing_has) { edits_beside_fresh_drawings(Sorts::with_handles); }

TEST(spare_and_bands_add_up) {
    Random random{5};
    Drawing drawing;
    CHECK(drawing.load(some_nodes(random, 40), some_nodes(random, 20)).done());
    for (const Node &one : drawing.light()) {
        std::uint32_t used = 0;
        for (const Link &link : drawing.links()) used += link.a() == one.number() ? link.amount() : 0;
        CHECK(is_done(drawing.spare(Master::light, one.number()), one.capacity() - used));
    }
    Counts counts;
    CHECK(is_done(drawing.bands(counts), 0));
    std::size_t sum = 0;
    for (std::size_t k = 0; k < PAIRING_BANDS; ++k) sum += counts[k];
    CHECK(sum == drawing.links().size() && sum > 0);
}

TEST(a_copy_is_a_drawing_of_its_own) {
    Drawing drawing;
    CHECK(is_done(drawing.edit(Edit::arrival(Master::a, node(1, 0, 0))), 0));
    Drawing copy = drawing;
    CHECK(is_done(copy.edit(Edit::arrival(Master::b, node(1, 0, 0))), 0));
    CHECK(copy.links().size() == 1 && drawing.links().size() == 0 && drawing.bold().size() == 0);
}

TEST(no_call_allocates) {
    Random random{6};
    const auto light = some_nodes(random, 40), bold = some_nodes(random, 30);
    Drawing drawing;
    Counts counts;
    const std::size_t before = harness::allocations();
    const bool done = drawing.load(light, bold) && drawing.pair() && drawing.step() && drawing.bands(counts) &&
                      drawing.edit(Edit::departure(Master::a, 3)) && drawing.spare(Master::b, 3) &&
                      drawing.set_capacity(Master::b, 3, 9);
    const bool refused = !drawing.load(light, {nullptr, 1});
    CHECK(harness::allocations() == before);
    CHECK(done && refused && before > 0);
}

// Drawings of different threads do not see each other.
TEST(threads) {
    constexpr std::size_t count = 4;
    std::vector<Drawing> drawings(count), alone(count);
    const auto play = [](Drawing &drawing, std::size_t seed) {
        Random random{static_cast<std::uint32_t>(100 + seed)};
        bool done = drawing.load(some_nodes(random, 60), some_nodes(random, 60)).done();
        for (int k = 1; k <= 60; ++k)
            done &= drawing.edit(Edit::move(Master::b, 3 * k, random.below(200), random.below(200))).done();
        return done;
    };
    bool done[count] = {};
    std::vector<std::thread> threads;
    for (std::size_t k = 0; k < count; ++k)
        threads.emplace_back([&, k] { done[k] = play(drawings[k], k); });
    for (std::thread &thread : threads) thread.join();
    for (std::size_t k = 0; k < count; ++k) {
        CHECK(done[k] && play(alone[k], k));
        CHECK(links_of(drawings[k]) == links_of(alone[k]));
    }
}
