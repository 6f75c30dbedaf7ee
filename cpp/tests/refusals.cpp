// Every call, and every refusal that it can give, through the wrapper. A refused call leaves every byte as it was.
#include "harness.hpp"

#include <algorithm>
#include <functional>
#include <utility>

using namespace pairing;
using harness::Call;
using harness::is;
using harness::is_done;
using harness::Memory;
using harness::node;
using harness::World;
using interface::Name;

namespace {

// Runs each call on buffers that `damage` has changed.
void every_call(const std::function<void(std::vector<Memory> &)> &damage,
                const std::function<void(const Call &, const Outcome &)> &judge) {
    for (const Call &call : harness::calls()) {
        auto own = call.lent;
        damage(own);
        const auto before = own;
        const Outcome outcome = call.run({own.begin(), own.end()});
        judge(call, outcome);
        if (!outcome) CHECK(own == before);
    }
}

bool checks_list(const Call &call) { return call.name != Name::pair; }
bool needs_finished(const Call &call) { return checks_list(call) && call.name != Name::step; }

// Edits of E7's finished drawing, each refused.
void refused(const Edit &wrong, Refusal refusal) {
    World world = harness::e7();
    const auto a = harness::copy(world.a), b = harness::copy(world.b), list = harness::copy(world.list);
    CHECK(is(edit(world.a, world.b, world.list, wrong), refusal, 0));
    CHECK(harness::copy(world.a) == a && harness::copy(world.b) == b && harness::copy(world.list) == list);
}

}  // namespace

TEST(every_call_done) {
    every_call([](auto &) {},
               [](const Call &call, const Outcome &outcome) {
                   // Pair: three links. A 1 moves closest to B 2: no row is kept. A 1 has nothing left.
                   CHECK(is_done(outcome, call.name == Name::pair ? 3 : 0));
               });
}

TEST(refused_length) {
    for (const Call &call : harness::calls())
        for (std::size_t place = 0; place < call.sizes.size(); ++place)
            for (const int more : {-1, 1}) {
                auto own = call.lent;
                own[place].resize(call.sizes[place] + static_cast<std::size_t>(more));
                const auto before = own;
                CHECK(is(call.run({own.begin(), own.end()}), Refusal::length, 0));
                CHECK(own == before);
            }
}

TEST(refused_tables) {
    const Refusal refusals[] = {Refusal::table_a, Refusal::table_b};
    // A capacity above the greatest; sorts above the greatest.
    const std::pair<std::size_t, std::uint8_t> faults[] = {{6, 65}, {7, 2}, {7, 255}};
    for (const auto &[place, value] : faults)
        for (const std::size_t table : {0u, 1u})
            for (const std::size_t row : {0u, 1u, 2u, 511u})
                every_call([&, at = place, fault = value](auto &own) { own[table][8 * row + at] = fault; },
                           [&](const Call &, const Outcome &outcome) {
                               CHECK(is(outcome, refusals[table], static_cast<std::uint32_t>(row)));
                           });
}

TEST(refused_list) {
    // A byte of row 1's amount, and one behind the links.
    for (const std::size_t row : {1u, 3u, 1022u})
        every_call([&](auto &own) { own[2][10 * row + 8] ^= 4; },
                   [&](const Call &call, const Outcome &outcome) {
                       if (checks_list(call)) CHECK(is(outcome, Refusal::list, static_cast<std::uint32_t>(row)));
                       else CHECK(is_done(outcome, 3));
                   });
}

TEST(refused_unfinished) {
    for (const std::size_t row : {0u, 1u, 2u})
        every_call([&](auto &own) { std::fill(&own[2][10 * row], own[2].data() + own[2].size(), 0); },
                   [&](const Call &call, const Outcome &outcome) {
                       if (needs_finished(call))
                           CHECK(is(outcome, Refusal::unfinished, static_cast<std::uint32_t>(row)));
                       else CHECK(is_done(outcome, checks_list(call) ? 1 : 3));
                   });
}

TEST(refused_kind) {
    for (const int kind : {0, 5, 255}) refused({static_cast<Kind>(kind), Master::a, 1, 0, 0, 0}, Refusal::kind);
}

TEST(refused_master) {
    for (const int master : {2, 255}) {
        refused(Edit::departure(static_cast<Master>(master), 1), Refusal::master);
        const World world = harness::e7();
        CHECK(is(spare(world.a, world.b, world.list, static_cast<Master>(master), 1), Refusal::master, 0));
    }
}

TEST(refused_field) {
    const World world = harness::e7();
    for (const int number : {0, -1, 65536, 65537})
        CHECK(is(spare(world.a, world.b, world.list, Master::a, number), Refusal::field, 0));
    refused(Edit::departure(Master::a, 0), Refusal::field);
    refused(Edit::departure(Master::a, 65537), Refusal::field);
    refused({Kind::departure, Master::a, 1, 1, 0, 0}, Refusal::field);
    refused({Kind::departure, Master::a, 1, 0, 1, 0}, Refusal::field);
    refused({Kind::departure, Master::a, 1, 0, 0, 1}, Refusal::field);
    refused({Kind::move, Master::b, 1, 0, 0, 1}, Refusal::field);
    refused({Kind::capacity, Master::b, 1, 0, 1, 1}, Refusal::field);
    // A sort is part of the field that must be zero.
    refused({Kind::departure, Master::a, 1, 0, 0, 0, Sort::off_curve}, Refusal::field);
    refused({Kind::move, Master::b, 1, 0, 0, 0, Sort::off_curve}, Refusal::field);
    for (const int position : {16385, -16385, 65536, -65536}) {
        refused(Edit::move(Master::a, 1, position, 0), Refusal::field);
        refused(Edit::move(Master::a, 1, 0, position), Refusal::field);
        refused(Edit::arrival(Master::a, node(3, position, 0)), Refusal::field);
    }
    for (const Sort sort : {Sort::on_curve, Sort::off_curve})
        for (const int capacity : {0, 65, 255, 256, 257, -1, -255, 65537}) {
            refused(Edit::new_capacity(Master::b, 1, capacity, sort), Refusal::field);
            refused(Edit::arrival(Master::b, node(3, 0, 0, capacity, sort)), Refusal::field);
        }
    for (const int sort : {2, 3, 128, 255}) {
        refused(Edit::new_capacity(Master::b, 1, 1, static_cast<Sort>(sort)), Refusal::field);
        refused(Edit::arrival(Master::b, node(3, 0, 0, 1, static_cast<Sort>(sort))), Refusal::field);
    }
}

TEST(refused_number) {
    const World world = harness::e7();
    CHECK(is(spare(world.a, world.b, world.list, Master::b, 3), Refusal::number, 0));
    refused(Edit::arrival(Master::a, node(2, 0, 0)), Refusal::number);
    refused(Edit::departure(Master::a, 3), Refusal::number);
    refused(Edit::move(Master::b, 65535, 0, 0), Refusal::number);
    refused(Edit::new_capacity(Master::b, 3, 1, Sort::on_curve), Refusal::number);
}

TEST(refused_full) {
    World world;
    for (int row = 0; row < PAIRING_TABLE_ROWS; ++row)
        world.b[static_cast<std::size_t>(row)] = node(row + 1, row, 0);
    CHECK(is_done(pair(world.a, world.b, world.list), 0));
    CHECK(is(edit(world.a, world.b, world.list, Edit::arrival(Master::b, node(600, 0, 0))), Refusal::full, 0));
    CHECK(is_done(edit(world.a, world.b, world.list, Edit::arrival(Master::a, node(600, 0, 0))), 0));
    CHECK(world.list.used().size() == 1 && world.list[0] == Link(600, 1, 0, 1));
}

TEST(values_that_do_not_fit_are_refused_in_tables) {
    for (const Node &wrong : {Node(65537, 0, 0, 1), Node(1, 65536, 0, 1), Node(1, 0, -65536, 1), Node(1, 0, 0, 65537),
                              Node(65536, 0, 0, 0), Node(1, 0, 0, 257), Node(1, 0, 0, 1, static_cast<Sort>(2)),
                              Node(1, 0, 0, 1, static_cast<Sort>(255)), Node(0, 0, 0, 0, Sort::off_curve)}) {
        World world;
        world.a[0] = wrong;
        CHECK(is(pair(world.a, world.b, world.list), Refusal::table_a, 0));
    }
}
